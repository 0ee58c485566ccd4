      INTEGER A(6)
      DATA A/1,2,3,4,5,6/
      CALL S(A,2,3)
      CALL S(A,3,2)
      CALL T(A,0)
      END
      SUBROUTINE S(B,M,N)
      INTEGER B(M,N)
      WRITE (*,'(6I3)') ((B(I,J),J=1,N),I=1,M)
      END
      SUBROUTINE T(C,K)
      INTEGER C(K:K+1,K:*)
      WRITE (*,'(6I3)') C(0,0),C(1,2)
      END
