      EXTERNAL NA,NB,S
      CALL T(NA,S,K)
      CALL T(NB,S,L)
      WRITE (*,'(2I4)') K,L
      END
      SUBROUTINE T(NF,SUB,M)
      EXTERNAL SUB
      CALL SUB(NF(5),M)
      END
      SUBROUTINE S(I,M)
      M=I*2
      END
      INTEGER FUNCTION NA(I)
      NA=I+1
      END
      INTEGER FUNCTION NB(I)
      NB=I*I
      END
