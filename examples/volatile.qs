# Timers, windows and scratch: what was committed lasts until the node stops. Timers are never committed: they end with
# their transaction.
client 0 0
0 begin a
0 window a 0 w hello
0 keep a 0 s text
0 timer a 0 t 1000
0 commit a
0 begin b
0 title b 0 w
0 fetch b 0 s
0 left b 0 t
0 commit b
