      INTEGER A(2,3),B(6)
      EQUIVALENCE (A(1,1),B(1))
      DO 10 I=1,6
   10 B(I)=I*I
      WRITE (*,20) A
      WRITE (*,20) ((A(I,J),J=1,3),I=1,2)
   20 FORMAT (6I4)
      END
