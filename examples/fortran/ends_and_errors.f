      CHARACTER*2 C
      N=0
   10 READ (*,'(I2)',END=20) K
      N=N+K
      GO TO 10
   20 WRITE (*,'(I4)') N
      C='1x'
      READ (C,'(I2)',IOSTAT=K,ERR=30) M
      N=0
   30 WRITE (*,'(I4,L2)') N,K.GT.0
      END
