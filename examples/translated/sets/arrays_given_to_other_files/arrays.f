C Subroutines that change arrays and variables.
      SUBROUTINE TURN(A)
      INTEGER A(6), K, B
      DO 10 K = 1, 3
      B = A(K)
      A(K) = A(7 - K)
      A(7 - K) = B
   10 CONTINUE
      END
      SUBROUTINE ADD(N, M)
      INTEGER N, M
      N = N + M
      END
