      DO 30 I=0,3
      CALL T(I,*10,*20)
      K=0
      GO TO 30
   10 K=1
      GO TO 30
   20 K=2
   30 WRITE (*,'(2I3)') I,K
      END
      SUBROUTINE T(K,*,*)
      RETURN K
      END
