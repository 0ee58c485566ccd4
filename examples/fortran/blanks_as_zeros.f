      OPEN (9,FILE='d',BLANK='ZERO')
      WRITE (9,'(A)') '1 2 '
      REWIND 9
      READ (9,'(I4)') I
      REWIND 9
      READ (9,'(BN,I4)') J
      WRITE (*,'(2I6)') I,J
      END
