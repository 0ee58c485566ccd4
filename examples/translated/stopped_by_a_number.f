      INTEGER I
      DO 10 I=1,5
      PRINT *,I
      IF (I.EQ.3) STOP
   10 CONTINUE
      END
