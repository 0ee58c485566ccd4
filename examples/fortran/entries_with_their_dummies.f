      CALL SET(5)
      CALL ADD(3,K)
      CALL ADD(4,L)
      WRITE (*,'(2I4)') K,L
      END
      SUBROUTINE SET(N)
      M=N
      RETURN
      ENTRY ADD(J,I)
      M=M+J
      I=M
      END
