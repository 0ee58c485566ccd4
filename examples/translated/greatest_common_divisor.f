      INTEGER A,B,T
      A=1071
      B=462
   10 IF (B.EQ.0) GO TO 20
      T=MOD(A,B)
      A=B
      B=T
      GO TO 10
   20 PRINT *,A
      END
