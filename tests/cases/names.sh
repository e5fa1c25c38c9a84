# words that look like options are never files, unless they stand behind --; a dash is standard input or standard output
vask allocate examples/net-p/request --help | head -n 1
ls
told allocate examples/net-p/request -x
told read -- --help
told allocate examples/net-p/request -- --help
ls
vask allocate - - <examples/net-p/request 2>said | cmp - examples/net-p/assignment && cat said
vask make examples/net-p/request - - <examples/net-p/assignment 2>said | cmp - examples/net-p/table && cat said
told verify examples/net-p/request - examples/net-p/table <examples/net-p/assignment
told verify - - examples/net-p/table <examples/net-p/request
told show - <examples/net-p/assignment
vask allocate examples/no-room/request - 2>said
echo "status $?"
head -n 1 said
