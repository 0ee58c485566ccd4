      INTEGER I, J, P
      LOGICAL L
      PARAMETER (P = 3)
      I = -7
      J = MOD(I, P) + ABS(I) ** 2 - MAX(I, 4, P) * MIN(I, 2) / INT(P)
      PRINT *, J, SIGN(P, I), DIM(P, I), 2 ** MOD(J, 5)
      I = IOR(I, ISHFT(1, P)) + IAND(J, IEOR(J, NOT(P)))
      L = BTEST(I, 2) .NEQV. .TRUE.
      PRINT *, IBSET(I, 1), IBCLR(J, 0), L, -I
      END
