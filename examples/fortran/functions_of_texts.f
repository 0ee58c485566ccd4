      CHARACTER*6 S
      S='HELLO'
      WRITE (*,'(3I4)') LEN(S),INDEX(S,'L'),INDEX(S,'X')
      WRITE (*,'(3I4)') ICHAR(S(1:1)),INDEX(S,'LO'),ICHAR(CHAR(200))
      WRITE (*,'(2A)') CHAR(72),CHAR(ICHAR('h')+1)
      END
