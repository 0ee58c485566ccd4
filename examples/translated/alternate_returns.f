C     CALL with labels: to the one that the subroutine picks, or on where it picks none
      PROGRAM WAYS
      INTEGER I, N, K(4), ROW(3, 2), TOTAL
      EXTERNAL PICK
C     the first one, the second one, and none: 0, 3 and what is negative
      DO 30 I = -1, 3
        CALL PICK(I, *10, *20)
        PRINT *, I, 0
        GO TO 30
   10   PRINT *, I, 1
        GO TO 30
   20   PRINT *, I, 2
   30 CONTINUE
C     the same label twice, between other arguments, and that of a CONTINUE
      TOTAL = 0
      DO 70 I = 1, 4
        CALL MIX(*40, I, *50, TOTAL, *40)
        TOTAL = TOTAL + 1000
   40   TOTAL = TOTAL + 100
        GO TO 60
   50   CONTINUE
   60   PRINT *, I, TOTAL
   70 CONTINUE
C     beside arrays, one of them with bounds that each call fixes
      DO 90 N = 0, 4
        CALL FIND(K, 4, N * N, *80)
        PRINT *, N, K(1)
        GO TO 90
   80   PRINT *, -N, K(1)
        K(2) = K(1)
   90 CONTINUE
      CALL FILL(ROW, 3, *100, *110)
      PRINT *, 0
  100 PRINT *, 1
  110 PRINT *, ROW(1, 1), ROW(3, 1), ROW(1, 2), ROW(3, 2)
C     under a condition, and back to a statement before
      N = 0
  120 N = N + 1
      IF (N .LT. 6) CALL PICK(MOD(N, 3), *120, *130)
      PRINT *, N
      IF (N .LT. 6) GO TO 120
      GO TO 140
  130 PRINT *, -N
      IF (N .LT. 9) CALL PICK(1, *120, *140)
      PRINT *, -1
C     out of a block and of loops
  140 DO 160 I = 1, 9
        DO 150 N = 1, 9
          IF (MOD(I * N, 7) .EQ. 5) THEN
            CALL LEAVE(I + N, *160, *170)
          ELSE
            CALL LEAVE(0, *150, *170)
          ENDIF
  150   CONTINUE
  160 CONTINUE
      PRINT *, 0
  170 PRINT *, I, N
C     a dummy argument that is called so, and a subroutine that returns as another did
      CALL USE(PICK, 2, *180, *190)
      PRINT *, 0
  180 PRINT *, 1
  190 CALL AGAIN(1, *200, *210)
      PRINT *, 0
  200 PRINT *, 1
  210 CALL AGAIN(2, *200, *220)
      PRINT *, 0
  220 PRINT *, 2
      END
      SUBROUTINE PICK(N, *, *)
      INTEGER N
      RETURN N
      END
C     which of three depends on both arguments, of which one is changed
      SUBROUTINE MIX(*, N, *, SUM, *)
      INTEGER N, SUM
      SUM = SUM + N
      IF (N .EQ. 1) RETURN
      IF (MOD(SUM, 5) .EQ. 0) RETURN 1
      IF (N .EQ. 3) RETURN 2
      RETURN 4 - 1
      END
C     the place of a number in an array, where it has one
      SUBROUTINE FIND(A, N, WANTED, *)
      INTEGER N, A(N), WANTED, I
      DO 10 I = 1, N
        A(I) = 3 * I
   10 CONTINUE
      DO 20 I = 1, N
        IF (A(I) .EQ. WANTED) GO TO 30
   20 CONTINUE
      A(1) = 0
      RETURN 1
   30 A(1) = I
      END
      SUBROUTINE FILL(A, N, *, *)
      INTEGER N, A(N, *), I
      DO 10 I = 1, N
        A(I, 1) = I
        A(I, 2) = I * I
   10 CONTINUE
      RETURN A(2, 1)
      END
      SUBROUTINE LEAVE(N, *, *)
      INTEGER N
      IF (N .GT. 9) RETURN 2
      IF (N .GT. 7) RETURN 1
      END
      SUBROUTINE USE(SUB, N, *, *)
      EXTERNAL SUB
      INTEGER N
      CALL SUB(N, *10, *20)
      RETURN
   10 RETURN 1
   20 RETURN 2
      END
      SUBROUTINE AGAIN(N, *, *)
      INTEGER N
      CALL PICK(N + 1, *10, *20)
      PRINT *, N
      RETURN 2
   10 RETURN 2
   20 PRINT *, -N
      RETURN 1
      END
