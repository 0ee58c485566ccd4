C     a variable of a subroutine keeps its value from call to call, and a value in parentheses is not changed
      PROGRAM KEEPS
      INTEGER I, K
      K = 5
      DO 10 I = 1, 4
        CALL COUNT((K), I, K)
   10 CONTINUE
      PRINT *, K
      END
      SUBROUTINE COUNT(GIVEN, TURN, TOTAL)
      INTEGER GIVEN, TURN, TOTAL, SEEN
      SAVE SEEN
      IF (TURN .EQ. 1) SEEN = 0
      SEEN = SEEN + TURN
      TOTAL = TOTAL + SEEN
      PRINT *, TURN, GIVEN, SEEN, TOTAL
      END
