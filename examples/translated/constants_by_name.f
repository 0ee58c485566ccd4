      INTEGER N,M
      LOGICAL YES
      PARAMETER (N=12,M=N*N-1,YES=.NOT..FALSE.)
      INTEGER A(N)
      A(N)=M
      PRINT *,A(12),YES,N
      END
