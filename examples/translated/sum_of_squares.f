      INTEGER I,S
      S=0
      DO 10 I=1,10
   10 S=S+I*I
      PRINT *,S
      END
