C The least common multiple, by the greatest common divisor of the other file.
      INTEGER FUNCTION LCM(M, N)
      INTEGER M, N, GCD
      LCM = M / GCD(M, N) * N
      END
