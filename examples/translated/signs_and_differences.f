      INTEGER I, J, K
      K = 0
      DO 10 I = ISIGN(4, -1), IDIM(9, 4)
      DO 10 J = -2, 2
      K = K + SIGN(I * 10, J) - DIM(I, J) * ISIGN(2, I - J)
      IF (SIGN(I, J) .EQ. I .OR. DIM(I + 1, 2 * J) .GT. 4)
     1 K = K + IDIM(ABS(I), 3)
 10   CONTINUE
      PRINT *, K, SIGN(K, -1), ISIGN(-K, 1), DIM(K, 7), IDIM(7, K)
      PRINT *, SIGN(DIM(12, K / 3), ISIGN(3, -K)),
     1 MAX(SIGN(5, K), DIM(2, K))
      I = SIGN(2, 1) ** DIM(10, 5) - DIM(SIGN(1, -1), -2) ** 4
      PRINT *, I, SIGN(-2147483647, 0), DIM(-2147483647, -2)
      END
