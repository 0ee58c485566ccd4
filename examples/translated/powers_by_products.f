      INTEGER I,P
      P=1
      DO 10 I=1,10
      P=P*2
   10 CONTINUE
      PRINT *,P,P-1,-P
      END
