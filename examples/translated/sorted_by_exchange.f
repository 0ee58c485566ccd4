      INTEGER A(8),I,J,T
      DO 10 I=1,8
   10 A(I)=MOD(I*37,11)-5
      DO 30 I=1,7
      DO 20 J=1,8-I
      IF (A(J).GT.A(J+1)) THEN
      T=A(J)
      A(J)=A(J+1)
      A(J+1)=T
      END IF
   20 CONTINUE
   30 CONTINUE
      DO 40 I=1,8
   40 PRINT *,I,A(I)
      END
