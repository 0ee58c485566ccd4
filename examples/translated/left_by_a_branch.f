      INTEGER I,J
      DO 20 I=1,5
      DO 10 J=1,5
      IF (I*J.EQ.12) GO TO 30
   10 CONTINUE
   20 CONTINUE
   30 PRINT *,I,J
      END
