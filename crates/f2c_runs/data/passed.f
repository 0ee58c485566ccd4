      INTEGER A(6), I, N, TWICE, TOTAL
      EXTERNAL TWICE
      N = 3
      DO 10 I = 1, 6
   10 A(I) = I
      CALL EACH(A, 2, N, TWICE)
      I = A(1) + TOTAL(A, N) * TWICE((I))
      PRINT *, I, TOTAL(A(4), 2)
      END
      SUBROUTINE EACH(B, M, N, F)
      INTEGER B(M, 0:N - 1), M, N, F, I, J
      EXTERNAL F
      DO 20 J = 0, N - 1
      DO 10 I = 1, M
      IF (B(I, J) .EQ. 6) RETURN
   10 B(I, J) = F(B(I, J))
   20 CONTINUE
      END
      INTEGER FUNCTION TWICE(K)
      TWICE = 2 * K
      END
      INTEGER FUNCTION TOTAL(C, N)
      INTEGER C(*), N
      TOTAL = 0
      DO 10 I = 1, N
   10 TOTAL = TOTAL + C(I)
      END
