      N=0
      DO 10 I=1,3
      J=0
      DO 10 WHILE (J.LT.I)
      J=J+1
   10 N=N+J
      PRINT *,I,J,N
      K=0
      DO 20 WHILE (K.LT.2)
      K=K+1
      DO 20 J=1,2
   20 N=N+100*K
      PRINT *,K,J,N
      END
