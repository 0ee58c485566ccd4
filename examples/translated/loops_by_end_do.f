      N=0
      DO I=1,3
      DO J=I,3
      N=N+1
      END DO
      N=N+10
      END DO
      PRINT *,I,J,N
      DO 10 K=1,5,2
      N=N+K
   10 END DO
      PRINT *,K,N
      DO 20 I=1,2
      DO J=1,2
      IF (J.EQ.2) GO TO 15
      N=N+100
   15 END DO
      N=N+1000
   20 END DO
      PRINT *,I,J,N
      DO K=2,1
      N=0
      END DO
      PRINT *,K,N
      END
