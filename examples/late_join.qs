# Two clients on one node. Client 1 and the audit join while the commit of a runs. The node stops right behind the decision,
# and what was committed is there when it is up again.
client 0 0
client 1 0
audit 0
0 begin a
after 0 decide a
0 put a 0 f hello
0 lend a 1
0 commit a
1 take a
1 put a 0 g late
1 yield a
0 begin b
0 get b 0 g
0 commit b
