      INTEGER A,B
      A=-7
      B=2
      PRINT *,A/B,MOD(A,B),-A/B,A/(-B)
      PRINT *,ABS(A),MAX(A,B,3),MIN(A,B,-9),MAX0(1,A)
      END
