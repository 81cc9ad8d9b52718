putint(1); skip; putint(20 + 30 +
   4)
