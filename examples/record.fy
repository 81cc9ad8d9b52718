{ A record is a merge of field definitions, and the last definition of a field hides the earlier
  ones. It writes 3. }
let r == (a == 1, b == 2, a == 3) in putint r.a
