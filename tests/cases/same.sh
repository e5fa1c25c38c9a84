# an output that is one of the inputs, whatever its name, is refused, and the input stays as it was
cp examples/net-p/request r
cp examples/net-p/assignment a
ln r hard
ln -s r soft
mkdir in
for out in r ./r in/../r hard soft; do told allocate r $out; done
told make r a a
told make r a r
told allocate - r <r
vask allocate r - >>r
echo "status $?"
cmp r examples/net-p/request && cmp a examples/net-p/assignment && echo 'all as it was'
