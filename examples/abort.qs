# What a transaction wrote is seen by itself, and gone once it is aborted.
client 0 0
0 begin a
0 put a 0 f x
0 get a 0 f
0 abort a
0 begin b
0 get b 0 f
0 commit b
