# before: the node stops in place of the step that would decide a. Its log has the vote and no commit, so a is aborted.
client 0 0
0 begin a
before 0 decide a
0 put a 0 f hello
0 commit a
