      PROGRAM MAIN
      INTEGER N, TWICE
      N = TWICE(21)
      PRINT *, N
      END
