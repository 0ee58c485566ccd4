      LOGICAL L(6)
      CHARACTER*3 A,B
      A='AB'
      B='AB '
      L(1)=A.EQ.B
      L(2)=A.LT.'ABC'
      L(3)='b'.GT.'ab'
      L(4)=LGE(A,'AB  ')
      L(5)=LLT('B','A')
      L(6)=A//B.NE.'AB AB'
      WRITE (*,'(6L2)') L
      END
