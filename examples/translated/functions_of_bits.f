      INTEGER I, J, K, M(0:3)
      LOGICAL L
      I = 5
      PRINT *, IOR(I, 2), IAND(6, 3), IEOR(6, 3), NOT(0), ISHFT(1, 31)
      PRINT *, ISHFT(-1, -31), IBSET(0, 3), IBCLR(9, 0), BTEST(4, 2)
      K = 32
      PRINT *, ISHFT(-1, K), ISHFT(-1, -K), ISHFT(-5, K - 32),
     1 ISHFT(3, K - 1)
      PRINT *, IBSET(0, K - 1), IBCLR(-1, K - 1), BTEST(-1, K - 1),
     1 BTEST(I, 1)
      L = BTEST(I, 1) .OR. .NOT. BTEST(NOT(I), 2)
      PRINT *, L, NOT(-I), IOR(-8, 3), IAND(-8, -3), IEOR(-1, 1)
      K = 0
      DO 20 J = IAND(13, 6), ISHFT(3, 3), IBSET(1, 1)
      DO 10 I = 0, 31
      IF (BTEST(J, I)) K = K + 1
 10   CONTINUE
      M(IAND(J, 3)) = IEOR(ISHFT(J, 2), IOR(K, NOT(J)))
      IF (BTEST(K, 0) .AND. IAND(K, 6) .NE. 0) THEN
      M(0) = IBCLR(IBSET(M(0), 4), IAND(K, 7))
      ELSE
      M(0) = IBSET(J, 8)
      END IF
 20   CONTINUE
      PRINT *, K, M(0), M(1), M(2), M(3),
     1 ISHFT(M(0), -2) + IAND(K, 2 ** 3)
      END
