      IMPLICIT LOGICAL (A-C),CHARACTER*3 (X-Z)
      PARAMETER (N=4,M=N*N-1,X='abcd',A=.TRUE.)
      INTEGER T(N:M)
      DO 10 I=N,M
   10 T(I)=I
      B=A.AND.T(M).EQ.15
      Y=X
      WRITE (*,'(I3,2L2,2A)') T(N)+M,A,B,X,Y(2:)
      END
