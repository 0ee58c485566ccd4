C The sum of the values of a function at the numbers from 1.
      SUBROUTINE SUMUP(F, N, TOTAL)
      INTEGER F, N, TOTAL, K
      EXTERNAL F
      TOTAL = 0
      DO 10 K = 1, N
      TOTAL = TOTAL + F(K)
   10 CONTINUE
      END
