      WRITE (6,10) 1,2,3,4,5,6,7,8,9
   10 FORMAT (I3,2(1X,I2.2)/)
      WRITE (6,20) (I,I=1,7)
   20 FORMAT ('a',I2,2('b',I2,('c',I2)))
      END
