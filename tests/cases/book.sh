# the booking program: net P, net Q, no room, no request, a cut one, and one with 5,000 bytes behind its end
book <examples/net-p/request
book <examples/net-q/request
book <examples/no-room/request
book </dev/null
head -c 30 examples/net-p/request | book
{ cat examples/net-p/request; head -c 5000 /dev/zero; } | book
