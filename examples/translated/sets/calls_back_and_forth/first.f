C The main program stands last, and the files call each other in turn.
      SUBROUTINE DOWN(N)
      INTEGER N
      PRINT *, N
      IF (N .GT. 0) CALL HALVE(N)
      END
