      N=0
      DO 10 I=1,3
      DO 10 J=1,3
      IF (J.EQ.2) GO TO 10
      N=N+10*I+J
   10 CONTINUE
      PRINT *,I,J,N
      END
