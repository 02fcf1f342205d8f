# Names: two transactions bind one name, and the second to commit is refused.
client 0 0
0 begin a
0 bind a 0 printer one
0 begin b
0 bind b 0 printer two
0 find a 0 printer
0 commit a
0 commit b
