      LOGICAL A,B,C
      A=.TRUE.
      B=.FALSE.
      C=A.AND..NOT.B
      PRINT *,C,A.EQV.B,A.NEQV.B,A.OR.B
      PRINT *,1.LT.2,2.LE.1,3.EQ.3,3.NE.3
      END
