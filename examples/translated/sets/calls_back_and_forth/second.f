      SUBROUTINE HALVE(N)
      INTEGER N, K
      LOGICAL ODD
      K = N / 2
      IF (ODD(N)) PRINT *, K, -1
      N = K
      END
      LOGICAL FUNCTION ODD(N)
      INTEGER N
      ODD = MOD(N, 2) .EQ. 1
      END
