# answers for other tools: one JSON object on one line
p="examples/net-p/request"
told read $p --json
told --json allocate $p assignment
told --json make $p assignment table
told --json verify $p assignment table
told --json check $p examples/net-p/clashing
told --json show assignment
vask --json read nothing-here 2>/dev/null
echo "status $?"
vask --json 2>/dev/null | cut -c 1-30
vask --json allocate $p - 2>said >out && cmp out assignment && cat said
