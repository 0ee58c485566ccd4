      NSQ(K)=K*K
      NP(K,L)=NSQ(K)+L*I
      I=2
      K=7
      WRITE (*,'(3I4)') NP(3,4),NSQ(NP(1,1)),K
      END
