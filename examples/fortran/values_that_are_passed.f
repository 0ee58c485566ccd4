      I=1
      CALL S((I),I)
      WRITE (*,'(I3)') I
      CALL S(I+1,K)
      WRITE (*,'(I3)') K
      END
      SUBROUTINE S(J,K)
      K=5
      WRITE (*,'(I3)') J
      END
