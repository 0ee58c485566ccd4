      COMMON I
      INTEGER A(3)
      EQUIVALENCE (I,A(1))
      CALL S
      WRITE (*,'(3I3)') A
      END
      SUBROUTINE S
      COMMON J,K,L
      J=1
      K=2
      L=J+K
      END
