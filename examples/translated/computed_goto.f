C     GO TO by a number: to the label that it picks, or on where it picks none
      PROGRAM PICKS
      INTEGER I, K, N, TURN
      DO 50 I = -1, 6
        K = 0
        GO TO (10, 20, 30, 20, 40), I
        K = 1000
        GO TO 40
   10   K = K + 1
   20   K = K + 10
        GO TO 40
   30   K = K + 100
   40   PRINT *, I, K
   50 CONTINUE
C     under a condition, by a function, and out of a loop
      DO 80 N = 1, 12
        IF (N .GT. 2) GO TO (60, 70, 90), TURN(N)
        PRINT *, -N
        GO TO 80
   60   PRINT *, N, 1
        GO TO 80
   70   PRINT *, N, 2
   80 CONTINUE
   90 PRINT *, N, 3
      CALL DIGITS(120212)
      CALL DIGITS(2011)
      GO TO (100), 2 - 1
      PRINT *, -1
  100 STOP
      END
      INTEGER FUNCTION TURN(N)
      INTEGER N
      TURN = 3
      IF (N .LT. 9) TURN = MOD(N, 3)
      END
C     a machine of three states that is given the digits of a number, the last one first
      SUBROUTINE DIGITS(NUMBER)
      INTEGER NUMBER, LEFT, STATE, DIGIT
      LEFT = NUMBER
      STATE = 1
  110 IF (LEFT .GT. 0) THEN
        DIGIT = MOD(LEFT, 10)
        LEFT = LEFT / 10
        PRINT *, DIGIT, STATE
        GO TO (120, 130, 140), STATE
      ENDIF
      PRINT *, STATE
      RETURN
  120 STATE = DIGIT + 1
      GO TO 110
  130 IF (DIGIT .EQ. 1) STATE = 3
      GO TO 110
  140 STATE = MAX(1, DIGIT)
      GO TO 110
      END
