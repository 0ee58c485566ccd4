      INTEGER A(-2:2),B(0:1,-1:1),I,J
      DO 10 I=-2,2
   10 A(I)=I*I
      DO 20 J=-1,1
      DO 20 I=0,1
   20 B(I,J)=10*I+J
      PRINT *,A(-2),A(0),A(2),B(1,-1),B(0,1)
      END
