# the five jobs on net P: each file is made from the one before
told read examples/net-p/request
told allocate examples/net-p/request assignment
told show assignment
told check examples/net-p/request assignment
told make examples/net-p/request assignment table
told show table
told verify examples/net-p/request assignment table
cmp assignment examples/net-p/assignment && cmp table examples/net-p/table && echo 'the files are those of examples/net-p'
