      WRITE (*,10) 1,2,3,4
   10 FORMAT (T10,I2,T3,I2,TR3,'x',TL5,I1,5X,I2)
      WRITE (*,20)
   20 FORMAT (3HABC,2X,'d''e',//,'f')
      WRITE (*,30) 1,2
   30 FORMAT (I2,:,' of',I2,:,' end')
      WRITE (*,30) 1
      END
