      INTEGER I,N,S
      DO 10 I=10,1,-3
   10 PRINT *,I
      N=4
      S=-2
      DO 20 I=N*2,1,S
      N=0
      S=5
   20 PRINT *,I,N
      DO 30 I=5,1
   30 PRINT *,0
      PRINT *,I
      END
