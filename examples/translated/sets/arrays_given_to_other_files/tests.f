C Whether an array rises.
      LOGICAL FUNCTION RISING(A)
      INTEGER A(6), K
      RISING = .TRUE.
      DO 10 K = 2, 6
      IF (A(K) .LT. A(K - 1)) RISING = .FALSE.
   10 CONTINUE
      END
