# Two transactions want one file: the second is told who holds it, and gets it after the commit.
client 0 0
0 begin a
0 begin b
0 put a 0 f first
0 put b 0 f second
0 get b 0 f
0 commit a
0 get b 0 f
0 put b 0 f second
0 commit b
