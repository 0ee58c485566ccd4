      CHARACTER*4 A(3)
      DATA A/'abcd','efgh','ijkl'/
      DO 10 I=1,3
   10 A(I)(I:I+1)=A(MOD(I,3)+1)(1:2)
      WRITE (*,'(3(1X,A))') A
      CALL S(A(2)(2:3),A)
      WRITE (*,'(3(1X,A))') A
      END
      SUBROUTINE S(T,B)
      CHARACTER*(*) T,B(2)
      T='?'
      B(1)=T//B(2)(1:1)
      END
