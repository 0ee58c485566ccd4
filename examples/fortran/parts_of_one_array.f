      INTEGER A(6)
      DO 10 I=1,6
   10 A(I)=I
      CALL S(A(2),A,4)
      WRITE (*,'(6I5)') A
      END
      SUBROUTINE S(P,Q,N)
      INTEGER P(N),Q(*)
      DO 20 J=1,N
   20 P(J)=Q(J)*10+P(J)
      END
