      CHARACTER*9 F
      CHARACTER*4 G(3)
      F='(2I'
      WRITE (F(4:6),'(I1,A)') 4,')'
      WRITE (*,F) 1,2
      G(1)='(I2,'
      G(2)='''x'','
      G(3)='I3)'
      WRITE (*,G) 1,2
      WRITE (*,F(1:5)) 3,4,5
      END
