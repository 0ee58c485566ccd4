      CHARACTER*2 F(4)
      F(1)='(I'
      F(2)='3)'
      WRITE (6,F) 7
      END
