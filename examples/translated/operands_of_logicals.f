      LOGICAL T,F
      T=.TRUE.
      F=.FALSE.
      PRINT *,T.AND..NOT.F,T.OR.F.AND.F,T.EQV.F,T.NEQV.F
      PRINT *,.NOT.T.OR.T,F.EQV.F.OR.T,3.LE.3,1.GT.1.AND.T
      END
