      K=3
      N=0
      DO WHILE (NEXT(K).GT.0)
      N=N*10+K
      END DO
      WRITE (*,'(2I5)') K,N
      END
      INTEGER FUNCTION NEXT(M)
      M=M-1
      NEXT=M
      END
