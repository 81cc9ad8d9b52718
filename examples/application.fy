{ A procedure stands before its argument, and an argument of one word needs no parentheses. The
  fault of a sum has the place of its sign. It writes 1 and faults at 4:38. }

putint 1; putint(9223372036854775807 + 1)
