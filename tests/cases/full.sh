# a file system that is full, or a file that may not grow: the accepted table is there still, and nothing else is left
cp examples/mesh/table table
sum() { cksum <table; }
before=$(sum)
# no file may grow beyond one block, and what is written is longer
(trap '' XFSZ; ulimit -f 1; told make examples/mesh/request examples/mesh/assignment table)
[ "$(sum)" = "$before" ] && echo 'the table is as it was'
ls -A
# the same where the system ends the program
(ulimit -f 1; vask make examples/mesh/request examples/mesh/assignment table >/dev/null 2>&1; [ $? -gt 2 ] && echo 'ended by the system') 2>/dev/null
[ "$(sum)" = "$before" ] && echo 'the table is as it was'
rm -f .table.*
# a device that is full
told make examples/mesh/request examples/mesh/assignment /dev/full
vask check examples/net-p/request examples/net-p/clashing >/dev/full
echo "status $?"
# a real file system of four pages, where one can be mounted
mkdir small
if mount -t tmpfs -o size=16k none small 2>/dev/null; then
    cp table small/table && head -c 9000 /dev/zero >small/other
    vask make examples/mesh/request examples/mesh/assignment small/table 2>said && echo 'it was written'
    grep -q 'No space left on device; it is as it was' said || echo 'that was not said'
    cmp small/table table || echo 'the table is gone'
    rm small/other
    vask make examples/mesh/request examples/mesh/assignment small/table >said || echo 'it was not written'
    umount small
fi
