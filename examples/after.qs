# after: the node stops right behind the step that decides a, whose commit is in its log: f is there in the next incarnation.
client 0 0
0 begin a
after 0 decide a
0 put a 0 f hello
0 commit a
