      N=1
      K=0
      DO 10 WHILE (N.LT.100)
      N=N*3
   10 K=K+1
      WRITE (*,'(2I4)') N,K
      DO 20, WHILE (K.GT.0)
      K=K-2
   20 CONTINUE
      WRITE (*,'(2I4)') N,K
      DO 30 WHILE (K.LT.3)
      K=K+1
   30 END DO
      WRITE (*,'(2I4)') N,K
      DO 40 WHILE (K.LT.3)
   40 K=0
      WRITE (*,'(2I4)') N,K
      END
