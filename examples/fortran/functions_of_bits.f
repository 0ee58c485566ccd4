      LOGICAL L
      I=5
      WRITE (*,'(6I12)') IOR(I,2),IAND(6,3),IEOR(6,3),NOT(0),
     1 ISHFT(1,31),ISHFT(-1,-31)
      L=BTEST(4,2)
      WRITE (*,'(2I12,L2)') IBSET(0,3),IBCLR(9,0),L
      K=32
      WRITE (*,'(5I12)') ISHFT(-1,K),ISHFT(-1,-K),ISHFT(-5,K-32),
     1 ISHFT(3,K-1),ISHFT(-2147483647-1,1-K)
      WRITE (*,'(5I12)') IOR(-8,3),IAND(-8,-3),IEOR(-1,1),
     1 NOT(2147483647),NOT(-I)
      WRITE (*,'(2I12,3L2)') IBSET(0,K-1),IBCLR(-1,K-1),
     1 BTEST(-1,K-1),BTEST(I,1),BTEST(I,0)
      END
