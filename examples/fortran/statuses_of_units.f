      OPEN (UNIT=8,FILE='d',STATUS='UNKNOWN',IOSTAT=N)
      WRITE (8,'(I1)') 5
      ENDFILE 8
      REWIND (8,IOSTAT=I)
      READ (8,'(I1)',IOSTAT=J) M
      READ (8,'(I1)',IOSTAT=K) L
      WRITE (*,'(5I3)') N,I,J,M,K
      CLOSE (8,STATUS='KEEP')
      CLOSE (8,IOSTAT=N)
      WRITE (*,'(I3)') N
      END
