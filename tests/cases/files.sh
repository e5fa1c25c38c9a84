# files that cannot be read are told by name, to book too
told read nothing-here
told read examples
told verify examples/net-p/request examples/net-p/assignment nothing-here
told show examples
told read - <examples
book <examples
