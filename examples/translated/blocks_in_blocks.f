      DO 10 I=1,4
      IF (I.LE.2) THEN
      IF (I.EQ.1) THEN
      K=1
      ELSE
      K=2
      END IF
      ELSE IF (I.EQ.3) THEN
      K=3
      ELSE
      DO 5 J=1,3
    5 K=K+J
      END IF
   10 PRINT *,I,K
      END
