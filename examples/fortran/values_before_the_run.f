      INTEGER A(3,2),B(4)
      CHARACTER*2 C(3)
      LOGICAL L
      DATA ((A(I,J),J=1,2),I=1,3)/1,2,3,4,5,6/,B/4*-1/
      DATA C(1),C(3)(2:2)/'xyz','w'/,L/.TRUE./
      DATA C(2),C(3)(1:1)/'q','v'/
      WRITE (*,'(10I3)') A,B
      WRITE (*,'(3A,L2)') C,L
      END
