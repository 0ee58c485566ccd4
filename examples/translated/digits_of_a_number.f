      INTEGER N,D,S
      N=90125
      S=0
   10 D=MOD(N,10)
      S=S+D
      PRINT *,D
      N=N/10
      IF (N.GT.0) GO TO 10
      PRINT *,S
      END
