      PROGRAM MAIN
      INTEGER N, TWICE
      N = TWICE(21, 2)
      INCLUDE 'calls.f'
      CALL PUT(N)
      END
