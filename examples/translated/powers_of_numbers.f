      INTEGER I, J, K, N(4)
      PARAMETER (K = -3)
      I = 3
      J = 2
      N(1) = I ** J + 2 ** I
      N(2) = (-2) ** K
      N(3) = (I - 2) ** (-I) - 1 ** K
      N(J + 2) = 2 ** 3 ** J / N(1) ** 2
      PRINT *, N(1), N(2), N(3), N(4)
      PRINT *, -J ** 2, (-J) ** 3, I ** 0, K ** J, (-1) ** N(1)
      DO 10 I = J ** 2, J ** 4, J ** 0 + 2
      IF (I ** J .GT. 100 .AND. MOD(I ** 3, 2 ** J) .EQ. 0) THEN
      PRINT *, I, I ** J
      ELSE IF (I ** 2 - 7 ** 2 .EQ. 0) THEN
      PRINT *, I, -1
      END IF
 10   CONTINUE
      DO WHILE (2 ** J .LT. 500)
      N(MOD(J, 2 ** 2) + 1) = J ** 2
      J = J + 1
      END DO
      PRINT *, J, N(2 ** 1), N(N(2) ** 0)
      END
