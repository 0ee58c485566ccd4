      DO 20 I=1,5
      DO 10 J=1,5
      IF (I*J.EQ.12) GO TO 30
   10 CONTINUE
   20 CONTINUE
   30 PRINT *,I,J
      K=0
      DO 40 I=1,4
      IF (I.EQ.3) GO TO 50
   40 K=K+I
   50 DO 60 I=I,I+1
   60 K=K+100*I
      PRINT *,I,K
      END
