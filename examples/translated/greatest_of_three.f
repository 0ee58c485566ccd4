C     a function of a function, in conditions and in assignments
      PROGRAM GREAT
      INTEGER LARGER, I, J
      DO 10 I = 1, 3
        DO 20 J = 1, 3
          IF (LARGER(I, J) .EQ. I) THEN
            PRINT *, I, J, LARGER(LARGER(I, J), 2)
          ELSE
            PRINT *, J, I, LARGER(I * J, 4) + LARGER(I, J)
          END IF
   20   CONTINUE
   10 CONTINUE
      END
      INTEGER FUNCTION LARGER(M, N)
      LARGER = M
      IF (N .GT. M) LARGER = N
      END
