      INTEGER N,D,S
      DO 20 N=2,500
      S=1
      DO 10 D=2,N/2
      IF (MOD(N,D).EQ.0) S=S+D
   10 CONTINUE
      IF (S.EQ.N) PRINT *,N
   20 CONTINUE
      END
