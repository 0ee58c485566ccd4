      INTEGER I, K, N
      LOGICAL L
      N = 0
      DO 60 I = 0, 3
        GO TO (10, 20), I
        N = N + 1
        GO TO 30
   10   ASSIGN 40 TO K
        GO TO 50
   20   IF (N - 1) 30, 30, 60
   30   ASSIGN 60 TO K
   50   IF (I .EQ. 2) N = N + 10
        GO TO K
   40   CONTINUE
        N = N + 100
        ASSIGN 60 TO K
        GO TO K, (60, 40)
   60 CONTINUE
      L = N .GT. 3 .AND. .NOT. (N .EQ. 4)
      PRINT *, N, L
      IF (L) STOP 7
      END
