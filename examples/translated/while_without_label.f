      J=0
      DO WHILE (J.LT.3)
      J=J+1
      END DO
      PRINT *,J
      DO WHILE (J.LT.3)
      J=0
      END DO
      PRINT *,J
      END
