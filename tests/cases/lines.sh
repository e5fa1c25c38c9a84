# what is wrong with the lines of a series, and the line that it needs
p="examples/net-p/request examples/net-p/assignment"
line() { dd if=examples/net-p/table bs=12 skip="$1" count=1 2>/dev/null; }
{ line 0; line 2; line 3; line 4; } >without && told verify $p without
{ line 0; line 1; line 2; line 3; line 1; line 4; } >doubled && told verify $p doubled
{ line 0; printf '\010\000\004\000\001\010\001\000\000\000\001\000'; printf '\010\000\004\000\001\010\005\000\000\000\001\000'; line 2; line 3; line 4; } >halves
told verify $p halves
told verify examples/net-q/request examples/net-q/assignment examples/net-p/table
# the bytes that are told, pasted behind the other lines, make the table right
{ line 0; line 2; line 3; printf '\010\000\004\000\001\004\001\000\000\000\001\000'; line 4; } >mended && told verify $p mended
