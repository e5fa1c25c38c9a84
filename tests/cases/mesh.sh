# a full-size mesh: its files are made again and accepted
vask read examples/mesh/request
vask allocate examples/mesh/request assignment
vask make examples/mesh/request assignment table
vask verify examples/mesh/request assignment table
cmp assignment examples/mesh/assignment && cmp table examples/mesh/table && echo 'the files are those of examples/mesh'
