      CHARACTER A*3,B(2)*4
      N=LEN(A//'X')
      WRITE (*,'(3I4)') N,LEN(A//B(2)//A(2:3)),LEN(B(1))
      END
