C An array, and an element of it, are given to subroutines of another file.
      PROGRAM MAIN
      INTEGER A(6), K
      LOGICAL RISING
      DO 10 K = 1, 6
      A(K) = 7 - K
   10 CONTINUE
      CALL TURN(A)
      CALL ADD(A(3), 100)
      PRINT *, A(1), A(2), A(3), A(4), A(5), A(6), RISING(A)
      CALL ADD(A(3), -100)
      PRINT *, RISING(A)
      END
