C     an array of two dimensions, and an element of it as the first of an array
      PROGRAM ROWS
      INTEGER T(3, 3), I, J, TOTAL
      DO 10 I = 1, 3
        DO 10 J = 1, 3
   10     T(I, J) = 10 * I + J
      PRINT *, TOTAL(T), T(2, 3)
      CALL DOUBLE(T(1, 2))
      PRINT *, TOTAL(T), T(1, 2), T(3, 2), T(1, 3)
      END
      INTEGER FUNCTION TOTAL(A)
      INTEGER A(9), I
      TOTAL = 0
      DO 10 I = 1, 9
   10   TOTAL = TOTAL + A(I)
      END
      SUBROUTINE DOUBLE(COLUMN)
      INTEGER COLUMN(3), I
      DO 10 I = 1, 3
   10   COLUMN(I) = 2 * COLUMN(I)
      END
