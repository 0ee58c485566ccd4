      CHARACTER*3 C(4)
      C(1)='abc'
      C(2)='def'
      C(3)='ghi'
      C(4)='jkl'
      CALL S(C)
      WRITE (*,'(4A4)') C
      END
      SUBROUTINE S(D)
      CHARACTER*6 D(2)
      WRITE (*,'(2A7)') D
      D(2)='mnopqr'
      END
