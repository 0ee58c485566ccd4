      INTEGER A(3,2)
      WRITE (*,'(1X,I2,''='',3I3)') (J,(I*J,I=1,3),J=1,2)
      READ (*,'(3I2)') ((A(I,J),I=1,3),J=1,2)
      WRITE (*,'(2I3)') ((A(I,J),J=1,2),I=3,1,-2),A(2,2)
      END
