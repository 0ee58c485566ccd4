      INTEGER I,K
      DO 10 I=1,6
      IF (I.LT.2) THEN
      K=10
      ELSE IF (I.LT.4) THEN
      K=20
      ELSE IF (I.EQ.4) THEN
      K=30
      IF (K.GT.20) THEN
      K=K+1
      ELSE
      K=K-1
      END IF
      ELSE
      K=40
      END IF
   10 PRINT *,I,K
      END
