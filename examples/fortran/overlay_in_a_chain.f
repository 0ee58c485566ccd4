      INTEGER A(4),B(4),C(4)
      EQUIVALENCE (A(1),B(3)),(B(1),C(2))
      DO 10 I=1,4
      C(I)=I
   10 A(I)=10*I
      B(2)=7
      WRITE (*,'(5I4)') B(1),B(2),B(3),C(3),C(4)
      END
