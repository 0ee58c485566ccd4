C Two functions.
      INTEGER FUNCTION SQUARE(N)
      INTEGER N
      SQUARE = N * N
      END
      INTEGER FUNCTION CUBE(N)
      INTEGER N, SQUARE
      CUBE = N * SQUARE(N)
      END
