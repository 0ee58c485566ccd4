      INTEGER I,J
      I=2
      DO 10 J=3,1
   10 I=I+J
      PRINT *,I
      END
