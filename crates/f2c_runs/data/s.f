      SUBROUTINE S
      I=2
      END
