# no room: the circuits that alone have none
told allocate examples/no-room/request kept
# net: two buffers; circuits 0 to 4 of one hop: three of them want five of four slots of buffer 0
printf '\010\000\001\000\003\000\002\000\000\001\001\002' >request
for circuit in '\004\002\001\000\000\000' '\004\001\001\000\001\000' '\004\001\001\000\000\000' '\004\001\001\000\001\000' '\004\002\001\000\000\000'; do
    printf '\006\000\002\000'"$circuit" >>request
done
printf '\000\000\005\000' >>request
told allocate request kept
vask --json allocate request kept | sed 's/.*"facts"/"facts"/'
ls
