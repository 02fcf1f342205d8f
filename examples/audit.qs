# Audit: as commit runs, files note at the audit what they are about to change. So audit joins late.
client 0 0
audit 0
0 begin a
0 put a 0 f hello
0 put a 0 g world
0 note a 0 by_hand
0 notes a 0
0 commit a
