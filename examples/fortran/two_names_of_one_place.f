      I=1
      CALL S(I,I)
      WRITE (*,'(I3)') I
      END
      SUBROUTINE S(J,K)
      J=J+1
      K=K*10
      J=J+K
      END
