{ What is read, written byte by byte. }
new byte: int := 0 in
(read byte; while byte >= 0 do (putchar (chr byte); read byte))
