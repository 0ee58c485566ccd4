      INTEGER I
      DO 40 I=-1,1
      IF (I) 10,20,30
   10 PRINT *,I,-1
      GO TO 40
   20 PRINT *,I,0
      GO TO 40
   30 PRINT *,I,1
   40 CONTINUE
      END
