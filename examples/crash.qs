# crash: the node stops in place of its fourth event. It is started again, and what was not answered is taken up.
client 0 0
0 begin a
0 put a 0 f hello
0 commit a
0 begin b
0 put b 0 g world
0 commit b
crash 0 4
