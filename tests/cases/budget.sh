# budgets: just enough, one too few, none, and what is no number of 32 bits
told allocate examples/net-p/request assignment 10
printf 'as it was' >kept
told allocate examples/net-p/request kept 9
cat kept && echo
told allocate examples/net-p/request kept 0
told allocate examples/net-p/request kept 4294967295
told allocate examples/net-p/request kept 4294967296
told allocate examples/net-p/request kept -1
told allocate examples/net-p/request kept 10x
