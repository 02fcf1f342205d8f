# Files: put replaces, append adds at the end, del removes; a quota refuses what would be too much.
client 0 0
quota 0 12
0 begin a
0 put a 0 greeting hello
0 append a 0 greeting _world
0 put a 0 scrap x
0 del a 0 scrap
0 list a 0
0 get a 0 greeting
0 commit a
0 begin b
0 append b 0 greeting _again
0 commit b
