      INTEGER F(20),I
      F(1)=1
      F(2)=1
      DO 10 I=3,20
      F(I)=F(I-1)+F(I-2)
   10 CONTINUE
      PRINT *,F(20),F(19),F(3)
      END
