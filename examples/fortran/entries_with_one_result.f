      WRITE (*,'(4I4)') NA(3),NB(4),NC(5),NA(0)
      END
      INTEGER FUNCTION NA(K)
      NA=K+1
      GO TO 10
      ENTRY NB(K)
      NA=K*2
      GO TO 10
      ENTRY NC(L)
      NB=L-1
   10 IF (NC.GT.3) NC=NC+100
      END
