      N=1
      K=0
      DO 10 WHILE (N.LT.100)
      N=N*3
   10 K=K+1
      PRINT *,N,K
      DO 20, WHILE (K.GT.0)
      K=K-2
   20 CONTINUE
      PRINT *,N,K
      DO 30 WHILE (K.LT.3)
      K=K+1
   30 END DO
      PRINT *,N,K
      DO 40 WHILE (K.LT.3)
   40 K=0
      PRINT *,N,K
      END
