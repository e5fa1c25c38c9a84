# files longer than any good one: bytes behind the end, circuits without end, records of offsets without end, 8,192 lines, no end at all
twice() { cat "$1" "$1" >twice && mv twice "$1"; }
{ cat examples/net-p/request; head -c 100000 /dev/zero; } >request
book <request
told read request
printf '\006\000\002\000\004\001\001\000\000\000' >circuits
for i in 1 2 3 4 5 6 7 8 9 10; do twice circuits; done
{ head -c 880 examples/mesh/request; cat circuits; } >request
book <request
told read request
head -c 5 examples/net-p/assignment >offsets
for i in 1 2 3 4 5 6 7 8 9 10; do twice offsets; done
told check examples/net-p/request offsets
head -c 48 examples/net-p/table >lines
for i in 1 2 3 4 5 6 7 8 9 10 11; do twice lines; done
told verify examples/net-p/request examples/net-p/assignment lines
# show goes on behind byte 65,536
vask show lines | tail -n 2
vask show lines | wc -l
told read /dev/zero
