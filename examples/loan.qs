# A loan: client 1 works for client 0's transaction, also once commit is asked for, which waits until the loan is given back.
client 0 0
client 1 0
0 begin a
0 put a 0 f hello
0 lend a 1
0 commit a
1 take a
1 put a 0 g late
1 yield a
