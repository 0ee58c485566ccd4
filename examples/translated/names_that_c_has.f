C     procedures and dummies with names that C or its header have
      PROGRAM NAMES
      INTEGER MAX, I, INT, SWITCH
      MAX = 3
      I = SWITCH(MAX, 4)
      CALL FOR(I, MAX)
      PRINT *, I, MAX, SWITCH(I, MAX)
      END
      INTEGER FUNCTION SWITCH(IF, ELSE)
      INTEGER IF, ELSE
      SWITCH = IF - ELSE
      IF (SWITCH .LT. 0) SWITCH = ELSE - IF
      END
      SUBROUTINE FOR(I, WHILE)
      INTEGER I, WHILE
      I = I + WHILE * 2
      WHILE = -I
      END
