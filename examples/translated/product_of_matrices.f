      INTEGER A(3,3),B(3,3),C(3,3),I,J,K
      DO 20 J=1,3
      DO 10 I=1,3
      A(I,J)=I+J
      B(I,J)=I-J
      C(I,J)=0
   10 CONTINUE
   20 CONTINUE
      DO 30 I=1,3
      DO 30 J=1,3
      DO 30 K=1,3
   30 C(I,J)=C(I,J)+A(I,K)*B(K,J)
      PRINT *,C(1,1),C(2,1),C(3,1)
      PRINT *,C(1,2),C(2,2),C(3,2)
      PRINT *,C(1,3),C(2,3),C(3,3)
      END
