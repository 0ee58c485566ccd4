C     BY VALUE
      LOGICAL L
      INTEGER A(2,0:1)
      A(2,1)=MOD(-7,3)
      L=A(2,1).LT.0.AND..NOT..FALSE.
      PRINT *,A(2,1),L,MAX(3,9,4)
      PRINT *,(I*I,I=1,12)
      END
