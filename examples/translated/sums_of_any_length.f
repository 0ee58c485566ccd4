C     DUMMY ARRAYS WITH BOUNDS THAT EACH CALL FIXES
      INTEGER A(3, 4), B(12), I, J, K, L, TOTAL
      DO 10 J = 1, 4
      DO 10 I = 1, 3
        A(I, J) = 10 * I + J
   10 CONTINUE
      PRINT *, TOTAL(A, 12), TOTAL(A(1, 2), 3)
      CALL FLIP(A, 3, 4, B)
      PRINT *, B(1), B(2), B(5), B(12)
      K = -2
      L = 9
      CALL SHIFT(B, K, L)
      PRINT *, K, L
      PRINT *, B(1), B(2), B(12)
      CALL COLUMN(A, 3, 2)
      PRINT *, A(1, 2), A(2, 2), A(3, 2), A(1, 3)
      END
      INTEGER FUNCTION TOTAL(V, N)
      INTEGER N, V(N), I
      TOTAL = 0
      DO 10 I = 1, N
   10 TOTAL = TOTAL + V(I)
      END
      SUBROUTINE FLIP(A, M, N, B)
      INTEGER M, N, A(M, N), B(N, M), I, J
      DO 10 I = 1, M
      DO 10 J = 1, N
   10 B(J, I) = A(I, J)
      END
C     THE BOUNDS STAY AS THEY WERE WHEN THE PROCEDURE BEGAN
      SUBROUTINE SHIFT(V, L, U)
      INTEGER L, U, V(L : U), I, M
      M = U
      L = 100
      U = 0
      DO 10 I = -2, M - 1
   10 V(I) = V(I + 1) + 1
      END
      SUBROUTINE COLUMN(A, LD, K)
      INTEGER LD, K, A(LD, *), I
      DO 10 I = 1, LD
   10 A(I, K) = A(I, K) * 2
      END
