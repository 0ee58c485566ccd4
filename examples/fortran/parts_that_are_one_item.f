      CHARACTER*3 A(2),C
      DATA A/'abc','def'/,C(2:3),C(1:1)/'uv','t'/
      READ (*,*) A(1)(2:3)
      READ (A(1)(1:1),*,IOSTAT=K) C(1:1),C(2:2)
      OPEN (UNIT=7,FILE=A(2)(1:1),IOSTAT=M)
      WRITE (*,'(2A,1X,A,2I3)') A,C,K,M
      END
