C     an array is sorted in its place by a subroutine, which calls another one
      PROGRAM SORTS
      INTEGER A(8), I
      DO 10 I = 1, 8
        A(I) = MOD(I * 5, 8) - 3
   10 CONTINUE
      CALL SORT(A, 8)
      DO 20 I = 1, 8
        PRINT *, I, A(I)
   20 CONTINUE
      END
      SUBROUTINE SORT(X, N)
      INTEGER X(8), N, I, J
      DO 10 I = 1, N - 1
        DO 20 J = I + 1, N
          IF (X(J) .LT. X(I)) CALL SWAP(X(I), X(J))
   20   CONTINUE
   10 CONTINUE
      END
      SUBROUTINE SWAP(M, N)
      INTEGER M, N, KEPT
      KEPT = M
      M = N
      N = KEPT
      END
