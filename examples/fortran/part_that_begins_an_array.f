      CHARACTER*3 A(2)
      DATA A/'abc','def'/
      CALL S(A(1)(2:3))
      END
      SUBROUTINE S(B)
      CHARACTER*2 B(2)
      PRINT *,B(2)
      END
