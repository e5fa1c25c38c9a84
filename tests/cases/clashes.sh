# clashes: the offsets that bring them about, and the slot in which packets first meet, which may be later than the slot that is told
told check examples/net-p/request examples/net-p/clashing
printf '\001\000\003\000\003\002\000\003\000\000\001\000\000\005\000' >later
told check examples/net-p/request later
told make examples/net-p/request later table
ls
told check examples/lessons/equal-lines/request examples/lessons/equal-lines/assignment
