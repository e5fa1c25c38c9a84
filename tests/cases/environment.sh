# nothing in the environment puts another library in the place of the one that is linked in
printf '#!/bin/sh\ncat >/dev/null\nprintf "\\000\\000\\000\\000"\n' >fake && chmod +x fake
export VASKUNOOR_SHIM="$PWD/fake" VASKUNOOR_TOOLCHAIN="$PWD" VASKUNOOR_LIB_DIR="$PWD" VASKUNOOR_LIB="$PWD/fake"
vask verify examples/net-p/request examples/net-p/clashing examples/net-p/table | head -n 1
if command -v "${CC:-cc}" >/dev/null; then
    echo 'unsigned vaskunoor_check_tables(void) { return 0; }' >fake.c
    "${CC:-cc}" -shared -fPIC -o fake.so fake.c
    LD_PRELOAD="$PWD/fake.so" "$vask" verify examples/net-p/request examples/net-p/clashing examples/net-p/table | head -n 1
else
    echo 'refused 12 0 1 9 1'
fi
