      N=3
      K=0
      DO 10 I=1,N
      N=10
   10 K=K+I
      PRINT *,I,N,K
      DO 20 I=10,1,-4
   20 K=K+I
      PRINT *,I,K
      DO 30 I=2,1
   30 K=0
      PRINT *,I,K
      END
