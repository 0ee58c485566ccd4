      CHARACTER*2 F,S
      CHARACTER*5 G
      S=F('Q')
      WRITE (*,'(3A)') S,'!',G('xy','z')
      END
      CHARACTER*(*) FUNCTION F(T)
      CHARACTER*(*) T
      F=T//T//T
      END
      CHARACTER*(*) FUNCTION G(T,U)
      CHARACTER*(*) T,U
      G=T//U
      G(5:5)='.'
      IF (LEN(T).EQ.2.AND.LEN(G).EQ.5) G(4:4)='+'
      END
