      LOGICAL IG
      WRITE (*,'(I4,L2)') IF1(3),IG(0)
      END
      INTEGER FUNCTION IF1(K)
      LOGICAL IG
      ENTRY IG(K)
      IG=K.GT.0
      IF (IG) IF1=K+1
      RETURN
      END
