      COMMON N
      N=1
      CALL S(N)
      WRITE (*,'(I4)') N
      END
      SUBROUTINE S(K)
      COMMON N
      N=N+10
      K=K*2
      N=N+1
      END
