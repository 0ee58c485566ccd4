C     a function is passed to another, which calls it, and to one that only passes it on
      PROGRAM PASSES
      INTEGER SUMOF, ONWARD, SQUARE, DOUBLE
      EXTERNAL SQUARE, DOUBLE
      PRINT *, SUMOF(SQUARE, 4), SUMOF(DOUBLE, 4)
      PRINT *, ONWARD(SQUARE, 3), ONWARD(DOUBLE, 3)
      END
      INTEGER FUNCTION SUMOF(F, N)
      INTEGER F, N, I
      EXTERNAL F
      SUMOF = 0
      DO 10 I = 1, N
        SUMOF = SUMOF + F(I)
   10 CONTINUE
      END
      INTEGER FUNCTION ONWARD(F, N)
      INTEGER F, N, SUMOF
      EXTERNAL F
      ONWARD = SUMOF(F, N) + 1
      END
      INTEGER FUNCTION SQUARE(K)
      SQUARE = K * K
      END
      INTEGER FUNCTION DOUBLE(K)
      DOUBLE = 2 * K
      END
