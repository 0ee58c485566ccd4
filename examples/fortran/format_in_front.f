      CHARACTER*20 F
      F(1:4)='(I3)'
      WRITE (6,F) 7
      END
