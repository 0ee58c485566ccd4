      N=0
      DO WHILE (.TRUE.)
      N=N+1
      IF (N*N.GT.50) GO TO 10
      END DO
   10 PRINT *,N
      DO 30 I=1,3
      K=0
      DO WHILE (K.LT.5)
      K=K+I
      IF (K.EQ.4) GO TO 30
      END DO
      N=N+K*10
   30 N=N+100
      PRINT *,I,K,N
      END
