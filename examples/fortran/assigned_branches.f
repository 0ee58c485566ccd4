      ASSIGN 10 TO K
      N=0
   10 N=N+1
      IF (N.EQ.2) ASSIGN 20 TO K
      IF (N.EQ.3) ASSIGN 30 TO K
      GO TO K,(10,20,30)
   20 N=N*10
      ASSIGN 30 TO K
      GO TO K
   30 WRITE (*,'(I4)') N
      END
