// An empty std::vector for every area of every call: its data pointer may be null. The exit status is 0 where each answer is right.
// Assumes C++98 or later, and the archive at the link.
#include <cstdio>
#include <vector>
#include "../../include/vaskunoor.h"

typedef std::vector<uint8_t> Bytes;

// data() came with C++11
static uint8_t *at(Bytes &bytes) {
#if __cplusplus >= 201103L
    return bytes.data();
#else
    return bytes.empty() ? NULL : &bytes[0];
#endif
}

static int wrong = 0;

static void expect(const char *what, uint32_t number, uint32_t wanted) {
    if (number == wanted) return;
    std::printf("%s: answers %u in place of %u\n", what, (unsigned)number, (unsigned)wanted);
    wrong = 1;
}

// every call with empty files and an empty output area
static void try_calls(Bytes &details, uint32_t wanted) {
    Bytes r, a, t;
    uint8_t *d = at(details);
    vaskunoor_size n = details.size();
    expect("read", vaskunoor_read(at(r), r.size(), d, n), wanted);
    expect("allocate", vaskunoor_allocate(at(r), r.size(), 1, at(a), a.size(), d, n), wanted);
    expect("check_assignment", vaskunoor_check_assignment(at(r), r.size(), at(a), a.size(), d, n), wanted);
    expect("make_tables", vaskunoor_make_tables(at(r), r.size(), at(a), a.size(), at(t), t.size(), d, n), wanted);
    expect("check_tables", vaskunoor_check_tables(at(r), r.size(), at(a), a.size(), at(t), t.size(), d, n), wanted);
}

int main() {
    Bytes details(VASKUNOOR_DETAILS_SIZE), none;
    try_calls(details, VASKUNOOR_CUT);
    try_calls(none, VASKUNOOR_TOO_SHORT);
    return wrong;
}
