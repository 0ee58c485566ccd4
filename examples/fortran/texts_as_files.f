      CHARACTER*8 L(3)
      CHARACTER*30 S
      LOGICAL P
      WRITE (L,'(I3,I4)') 1,2,3,4
      L(3)='  -12 34'
      READ (L,'(2I4)') I,J,K,M
      READ (L(3),'(I5,I3)') N,I
      WRITE (S,*) .TRUE.,I+N
      READ (S,*) P,NEW
      WRITE (*,'(6I5,L2)') I,J,K,M,N,NEW,P
      WRITE (*,'(3A)') L
      READ (L(2)(3:7),*,END=10) I,J
   10 WRITE (*,'(2I5)') I,J
      END
