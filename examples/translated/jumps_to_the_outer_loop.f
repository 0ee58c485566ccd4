      N=0
      DO 20 I=1,3
      DO 10 J=1,3
      IF (J.EQ.I) GO TO 15
   10 N=N+1
   15 N=N+10*J
   20 CONTINUE
      PRINT *,I,J,N
      END
