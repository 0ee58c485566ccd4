      SUBROUTINE ADD(N, S)
      INTEGER N, S, I
      DO 10 I = 1, N
   10 S = S + I
      END
