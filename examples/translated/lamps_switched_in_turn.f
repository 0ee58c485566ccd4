      LOGICAL P(100)
      INTEGER I,J,N
      DO 10 I=1,100
   10 P(I)=.TRUE.
      P(1)=.FALSE.
      DO 30 I=2,50
      IF (P(I)) THEN
      DO 20 J=I+3,100,I
   20 P(J)=.NOT.P(J)
      END IF
   30 CONTINUE
      N=0
      DO 40 I=1,100
      IF (P(I)) N=N+1
   40 CONTINUE
      PRINT *,N,P(97),P(91),P(1)
      END
