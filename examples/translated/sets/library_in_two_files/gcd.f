C The greatest common divisor of two numbers.
      INTEGER FUNCTION GCD(M, N)
      INTEGER M, N, A, B, C
      A = M
      B = N
      DO WHILE (B .NE. 0)
      C = MOD(A, B)
      A = B
      B = C
      END DO
      GCD = A
      END
