      CHARACTER*3 FA,FB
      WRITE (*,'(4A)') FA('x'),FB(2),'|'
      END
      CHARACTER*3 FUNCTION FA(T)
      CHARACTER*(*) T
      CHARACTER*3 FB
      FA=T//T
      RETURN
      ENTRY FB(N)
      FA='abc'
      FB(N:N)='-'
      END
