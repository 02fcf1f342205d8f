# Three nodes, a client at two of them, audit notes at the third.
client 0 0
client 1 1
audit 2

# Client 0 lends its transaction and asks for its commit while client 1 has still to act for it. Node 0 stops right behind the
# decision, before anybody is told, and starts again.
0 begin hello
after 0 decide hello
0 put hello 0 f hello
0 lend hello 1
0 commit hello

# Meanwhile client 1 reads at its own node, and puts a file at node 2, which joins while the commit runs.
1 take hello
1 begin other
1 get other 1 f
1 get other 1 f
1 get other 1 f
1 put hello 2 g late
1 yield hello
1 commit other

# What was committed is there.
0 begin again
0 get again 2 g
0 commit again
