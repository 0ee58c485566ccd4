      INTEGER A(16),LOW,HIGH,MID,KEY,I
      DO 10 I=1,16
   10 A(I)=I*I
      KEY=121
      LOW=1
      HIGH=16
      DO 20 WHILE (LOW.LT.HIGH)
      MID=(LOW+HIGH)/2
      IF (A(MID).LT.KEY) THEN
      LOW=MID+1
      ELSE
      HIGH=MID
      END IF
   20 CONTINUE
      PRINT *,LOW,A(LOW).EQ.KEY
      END
