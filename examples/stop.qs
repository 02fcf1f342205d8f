# stop: the second disk call after the opening trips, within the force of the vote. Nothing of a was committed.
client 0 0
0 begin a
0 put a 0 f hello
0 commit a
0 begin b
0 put b 0 f again
0 commit b
stop 0 2
