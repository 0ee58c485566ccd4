      CHARACTER*2 S(3),T(3),U(3),V(3)
      EQUIVALENCE (S(2),T(1)),(U(1),V(3))
      S(1)='ab'
      S(2)='cd'
      S(3)='ef'
      READ (S,'(A2)') T
      WRITE (*,'(3A)') T
      S(1)='gh'
      READ (S,*) T
      WRITE (*,'(3A)') T
      V(1)='uv'
      V(2)='wx'
      V(3)='yz'
      WRITE (U,'(A2)') V
      WRITE (*,'(3A)') U
      END
