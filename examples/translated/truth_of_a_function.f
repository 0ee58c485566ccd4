C     a logical function, returns in the midst of a unit, and a stop in a subroutine
      PROGRAM TRUTH
      LOGICAL ISPRIM
      INTEGER N
      DO 10 N = 2, 30
        IF (ISPRIM(N)) PRINT *, N, ISPRIM(N)
   10 CONTINUE
      PRINT *, .NOT. ISPRIM(9)
      CALL LAST(N)
      PRINT *, 0
      END
      LOGICAL FUNCTION ISPRIM(N)
      INTEGER N, D
      ISPRIM = .FALSE.
      DO 10 D = 2, N - 1
        IF (MOD(N, D) .EQ. 0) RETURN
   10 CONTINUE
      ISPRIM = .TRUE.
      END
      SUBROUTINE LAST(N)
      INTEGER N
      PRINT *, N
      STOP
      END
