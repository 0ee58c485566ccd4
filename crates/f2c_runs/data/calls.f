      CALL SHOW(N)
      CALL SHOW(.TRUE.)
