C A main program that calls a library of two files.
      PROGRAM MAIN
      INTEGER K, GCD, LCM
      DO 10 K = 12, 20, 4
      PRINT *, K, GCD(K, 18), LCM(K, 18)
   10 CONTINUE
      END
