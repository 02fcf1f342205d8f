# One client writes a file and commits.
client 0 0
0 begin a
0 put a 0 f hello
0 commit a
