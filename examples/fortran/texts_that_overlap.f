      CHARACTER*4 A
      CHARACTER*3 B(2)
      EQUIVALENCE (A(3:3),B(1)(2:2))
      B(1)='abc'
      B(2)='xyz'
      A(1:2)='PQ'
      WRITE (*,'(3A)') A,B
      END
