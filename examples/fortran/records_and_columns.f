      READ (*,10) I,J,K,L
   10 FORMAT (2X,I2,T1,I2/I3,TL2,I1)
      WRITE (*,'(4I4)') I,J,K,L
      READ (*,'(I2)') I,J
      READ (*,*) K
      WRITE (*,'(3I4)') I,J,K
      END
