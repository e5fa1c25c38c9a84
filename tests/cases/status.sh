# exit statuses: 0 done, 1 refused, 2 wrong usage or a file that cannot be read or written; a Makefile stops at the first that is not 0
told read examples/net-p/request
told check examples/net-p/request examples/net-p/clashing
told read
told read nothing-here
cat >Makefile <<'END'
table: request
	$(VASK) allocate request assignment
	$(VASK) make request assignment table
	$(VASK) verify request assignment table
END
cp examples/no-room/request .
make VASK="$vask" table >said 2>&1 && echo 'make went on'
grep -c '^refused 10' said
ls
cp examples/net-p/request .
make VASK="$vask" table >/dev/null 2>&1 && echo 'make is done' && cmp table examples/net-p/table
