      CHARACTER*3 S
      CHARACTER*6 T
      S='AB'//'CDE'
      T=S//'!'
      WRITE (*,'(4A)') S,T,'|'
      T(2:3)='xyz'
      T(5:)='0'
      S(1:1)=T(3:3)
      WRITE (*,'(4A)') S,T,'|'
      END
