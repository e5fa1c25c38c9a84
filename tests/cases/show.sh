# records in words, damaged files too
vask show examples/net-p/request
vask show examples/net-q/table
head -c 34 examples/net-p/request >cut
vask show cut
head -c 3 examples/net-p/request >head
vask show head
printf '\002\000\011\000\001\002\004\000\004\000\001\002\003\004' >strange
vask show strange
printf '' >empty
vask show empty
