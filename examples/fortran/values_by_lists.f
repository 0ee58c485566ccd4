      INTEGER A(4)
      CHARACTER*4 S,T
      LOGICAL P
      DATA A/4*-1/,J,K,M/3*0/
      READ (*,*) I,J,K,A
      WRITE (*,'(7I3)') I,J,K,A
      READ (*,*) S,P,T,M
      WRITE (*,'(A,L2,1X,A,I3)') S,P,T,M
      READ (*,*) (A(I),I=1,4)
      WRITE (*,'(4I3)') A
      END
