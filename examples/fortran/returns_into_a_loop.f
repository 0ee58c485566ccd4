      K=0
      DO 30 I=1,3
      IF (I.EQ.2) THEN
      DO 10 J=1,2
      IF (J.EQ.2) GO TO 20
   10 K=K+1
   20 K=K+10
      ELSE IF (I.EQ.3) THEN
      CALL S(I,*30,*40)
      K=K+100
      END IF
      K=K+1000
   30 CONTINUE
      K=K+10000
   40 WRITE (*,'(2I6)') I,K
      IF (I.EQ.4) CALL S(I,*40,*50)
      K=0
   50 WRITE (*,'(2I6)') I,K
      END
      SUBROUTINE S(N,*,*)
      DO 10 I=1,N
   10 IF (I.EQ.N-2) RETURN N-2
      END
