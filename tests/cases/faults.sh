# one request, table or assignment for each field: what is told is the field, its value, and what is allowed
# with FILE BYTE VALUES: a copy of the file with other values (octal) from that byte on
with() {
    cp "$1" changed
    printf "$3" | dd of=changed bs=1 seek="$2" conv=notrunc 2>/dev/null
}
of_request() { with examples/net-p/request "$@"; told read changed; }
of_assignment() { with examples/net-p/assignment "$@"; told check examples/net-p/request changed; }
of_table() { with examples/net-p/table "$@"; told verify examples/net-p/request examples/net-p/assignment changed; }
# the network: kind, length, routers, buffers, a router that is not there, one router twice, the pair of another buffer
of_request 2 '\007'
of_request 0 '\005'
of_request 0 '\014'
of_request 4 '\000'
of_request 4 '\101'
of_request 6 '\201'
of_request 8 '\003'
of_request 13 '\011'
of_request 9 '\000'
of_request 12 '\001\002'
# a circuit: kind, length, cycle, demand, hops, spare byte, a buffer that is not there, one that comes twice, one that does not follow
of_request 16 '\004'
of_request 14 '\007'
of_request 18 '\000'
of_request 18 '\041'
of_request 19 '\000'
of_request 19 '\005'
of_request 20 '\000'
of_request 20 '\003'
of_request 21 '\001'
of_request 24 '\003'
of_request 24 '\000'
of_request 24 '\002'
# the end: its length, bytes behind it, none
of_request 36 '\001'
of_request 40 '\000\000'
head -c 36 examples/net-p/request >cut && told read cut
head -c 38 examples/net-p/request >cut && told read cut
head -c 30 examples/net-p/request >cut && told read cut
told read /dev/null
# offsets: kind, length, count, not below the cycle, not rising, an end too early, a record too many
of_assignment 2 '\002'
of_assignment 0 '\000'
of_assignment 5 '\001'
of_assignment 4 '\004'
of_assignment 10 '\000'
{ head -c 5 examples/net-p/assignment; printf '\000\000\005\000'; } >early && told check examples/net-p/request early
{ head -c 11 examples/net-p/assignment; cat examples/net-p/assignment; } >surplus && told check examples/net-p/request surplus
# lines: length, router, period, slot, spare byte, in, out
of_table 12 '\011'
of_table 16 '\003'
of_table 17 '\000'
of_table 17 '\041'
of_table 18 '\004'
of_table 19 '\001'
of_table 20 '\001'
of_table 20 '\011'
of_table 22 '\000'
# files in a wrong order
told read examples/net-p/table
told check examples/net-p/assignment examples/net-p/request
told verify examples/net-p/request examples/net-p/table examples/net-p/assignment
