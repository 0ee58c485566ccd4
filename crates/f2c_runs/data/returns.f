      INTEGER A(3), I
      DO 30 I = 0, 3
        CALL PICK(A, I, *10, *20, *10)
        A(1) = 0
   10   A(1) = A(1) + 1
   20   PRINT *, I, A(1)
   30 CONTINUE
      END
      SUBROUTINE PICK(X, N, *, *, *)
      INTEGER X(3), N
      X(1) = 10 * N
      IF (N .LE. 3) RETURN N
      END
