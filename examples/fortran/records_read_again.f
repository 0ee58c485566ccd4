      OPEN (9,FILE='d')
      DO 10 I=1,3
   10 WRITE (9,'(I2)') I*I
      REWIND 9
      READ (9,'(I2)') I,J
      BACKSPACE 9
      READ (9,'(I2)') K
      BACKSPACE (9)
      WRITE (9,'(I2)') 77
      ENDFILE 9
      REWIND 9
      N=0
   20 READ (9,'(I2)',END=30) L
      N=N+L
      GO TO 20
   30 WRITE (*,'(4I4)') I,J,K,N
      CLOSE (9)
      END
