      CHARACTER*2 U(3),V(3)
      EQUIVALENCE (U(1),V(2))
      V(1)='uv'
      V(2)='wx'
      V(3)='yz'
      WRITE (U,'(A2)') V(1),V(2),V(3)
      WRITE (6,'(A2)') V
      END
