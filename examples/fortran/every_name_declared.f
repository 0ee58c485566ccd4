      IMPLICIT NONE
      INTEGER I,A(3)
      LOGICAL L
      L=.TRUE.
      DO I=1,3
      A(I)=I*I
      END DO
      WRITE (*,'(3I3,L2)') A,L
      END
