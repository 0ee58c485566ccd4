C A function of one file is passed to a subroutine of another.
      PROGRAM MAIN
      INTEGER SQUARE, CUBE, TOTAL
      EXTERNAL SQUARE, CUBE
      CALL SUMUP(SQUARE, 5, TOTAL)
      PRINT *, TOTAL
      CALL SUMUP(CUBE, 5, TOTAL)
      PRINT *, TOTAL
      END
