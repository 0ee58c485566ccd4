      DO 10 I=1,3
   10 WRITE (*,'(I4)') NEXT(I)
      END
      INTEGER FUNCTION NEXT(K)
      DATA N/100/
      N=N+K
      NEXT=N
      END
