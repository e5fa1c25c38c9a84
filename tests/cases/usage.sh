# no words, too few, too many, none that is known; help and version
told
told read
told read a b
told book examples/net-p/request
told verify a b
told read --fast examples/net-p/request
told --version
told --help | head -n 1
for job in read allocate check make verify show; do vask $job --help | head -n 3; done
