      INTEGER I
      I=3
      WRITE (6,*) I,I*2
      WRITE (UNIT=6,FMT=*) I+1
      WRITE (*,*) -I
      PRINT *
      END
