      COMMON /B/ I,J(2),K
      COMMON M
      I=1
      J(1)=2
      J(2)=3
      K=4
      M=5
      CALL S
      WRITE (*,'(5I3)') I,J,K,M
      END
      SUBROUTINE S
      COMMON L,/B/ N(2,2)
      COMMON NEW
      NEW=6
      N(2,1)=N(1,2)+L+NEW
      N(1,2)=0
      END
