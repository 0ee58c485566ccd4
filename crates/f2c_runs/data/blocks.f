      INTEGER A(2, 0:3), I, J, K
      DO 10 I = 1, 2
      DO 10 J = 0, 3
   10 A(I, J) = 10 * I + J
      K = 2
      DO 20 I = 2, 1, -K
        IF (A(I, 0) .LT. 20) THEN
          K = K + 1
        ELSE IF (A(I, 1) .EQ. 21) THEN
          K = -K
        ELSE
          K = 0
        END IF
   20 CONTINUE
      DO WHILE (K .LT. 5)
        K = K + 3
      END DO
      WRITE (6, *) A(2, 3), K
      END
