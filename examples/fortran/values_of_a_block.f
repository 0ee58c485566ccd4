      COMMON /T/ I(5)
      COMMON /U/ C
      CHARACTER*3 C
      WRITE (*,'(5I3,1X,A)') I,C
      END
      BLOCK DATA
      COMMON /T/ J(2),K(3)
      COMMON /U/ C
      CHARACTER*3 C
      DATA J/2*4/,K/1,2*9/,C/'ab'/
      END
