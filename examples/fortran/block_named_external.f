      EXTERNAL BD
      COMMON /T/ I
      WRITE (*,'(I3)') I
      END
      BLOCK DATA BD
      COMMON /T/ I
      DATA I/7/
      END
