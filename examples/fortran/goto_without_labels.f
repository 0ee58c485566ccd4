      GO TO 40
   10 N=I
      GO TO 30
   20 N=-I
   30 WRITE (*,'(2I4)') I,N
      I=I+1
      IF (I.GT.4) ASSIGN 60 TO K
      GO TO K
   40 I=1
      ASSIGN 50 TO K
      GO TO K
   50 IF (I.LT.3) ASSIGN 10 TO L
      IF (I.EQ.3) ASSIGN 20 TO L
      IF (I.GT.0) GO TO L
   60 CONTINUE
      END
