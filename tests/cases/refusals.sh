# refusals leave the output file as it was, and are told in words
printf 'as it was' >kept
told allocate examples/no-room/request kept
cat kept && echo
told make examples/net-q/request examples/lessons/first-buffer/assignment kept
cat kept && echo
told check examples/net-p/request examples/net-q/assignment
head -c 20 examples/net-p/table >cut
told verify examples/net-p/request examples/net-p/assignment cut
