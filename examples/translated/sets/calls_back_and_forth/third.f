      PROGRAM LAST
      INTEGER N
      N = 41
   10 IF (N .EQ. 0) GO TO 20
      CALL DOWN(N)
      GO TO 10
   20 CALL DOWN(N)
      STOP
      END
