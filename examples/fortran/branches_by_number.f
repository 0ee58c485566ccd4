      DO 50 I=0,4
      GO TO (10,20,30),I
      K=0
      GO TO 40
   10 K=1
      GO TO 40
   20 K=2
      GO TO 40
   30 K=3
   40 IF (K-1) 41,42,43
   41 L=-1
      GO TO 50
   42 L=0
      GO TO 50
   43 L=1
   50 WRITE (*,'(3I3)') I,K,L
      END
