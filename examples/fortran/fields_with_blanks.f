      CHARACTER*3 A,B
      CHARACTER*5 C
      LOGICAL P,Q
      READ (*,10) I,J,K,L
   10 FORMAT (I4,BZ,I4,BN,I4,I2)
      WRITE (*,'(4I6)') I,J,K,L
      READ (*,20) A,B,C
   20 FORMAT (A2,A5,A)
      WRITE (*,'(A,1X,A,1X,A)') A,B,C
      READ (*,'(L4,L2,I3)') P,Q,I
      WRITE (*,'(2L2,I3)') P,Q,I
      END
