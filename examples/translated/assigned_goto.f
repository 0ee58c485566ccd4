C     GO TO by a variable that holds a label: to that label
      PROGRAM HOLDS
      INTEGER NEXT, I, SUM
C     a part of the program that goes back to where it was gone to from
      I = 3
      ASSIGN 10 TO NEXT
      GO TO 100
   10 PRINT *, I, SUM
      I = 4
      ASSIGN 20 TO NEXT
      GO TO 100
   20 PRINT *, I, SUM
C     in a loop, with labels that are written more than once
      ASSIGN 30 TO NEXT
      DO 60 I = 1, 6
        GO TO NEXT, (30, 40, 50, 30, 40)
   30   PRINT *, I, 1
        ASSIGN 40 TO NEXT
        GO TO 60
   40   PRINT *, I, 2
        IF (I .GT. 3) ASSIGN 50 TO NEXT
        GO TO 60
   50   PRINT *, I, 3
        IF (MOD(I, 2) .EQ. 0) ASSIGN 30 TO NEXT
   60 CONTINUE
      CALL STEPS(4)
      CALL ROUNDS(5)
C     a variable that held a label holds a number again
      NEXT = 7
      PRINT *, NEXT
      STOP
C     the sum of the numbers from 1 to I
  100 SUM = 0
  110 SUM = SUM + I
      I = I - 1
      IF (I .GT. 0) GO TO 110
      IF (SUM .GE. 0) GO TO NEXT, (10, 20)
      END
C     without the comma behind the variable
      SUBROUTINE STEPS(N)
      INTEGER N, LEFT, WAY
      LEFT = N
      ASSIGN 200 TO WAY
  200 LEFT = LEFT - 1
      IF (LEFT .EQ. 1) ASSIGN 210 TO WAY
      PRINT *, LEFT
      GO TO WAY (200, 210)
      PRINT *, -1
  210 PRINT *, 0
      END
C     without a list of labels: to those that ASSIGN statements of the unit name, before and behind, in a loop and under a condition
      SUBROUTINE ROUNDS(N)
      INTEGER N, WAY, BACK, I
      ASSIGN 330 TO BACK
      GO TO 340
  300 DO 320 I = 1, N
        ASSIGN 310 TO WAY
        IF (MOD(I, 2) .EQ. 0) ASSIGN 320 TO WAY
        GO TO WAY
  310   PRINT *, I
  320 CONTINUE
      IF (N .GT. 0) GO TO BACK
      PRINT *, -2
  330 ASSIGN 350 TO BACK
      PRINT *, N
      IF (N .GT. 4) GO TO BACK
      PRINT *, -3
      RETURN
  340 GO TO 300
  350 PRINT *, 2 * N
      END
