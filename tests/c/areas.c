/* The areas of a call: null pointers where the size is 0, in every area of every call; and areas at odd addresses, which must give the
 * same answers and bytes as others, with nothing written beside them. The first word is `null` or `odd`. Prints what is wrong; the exit
 * status is 0 where nothing is. Assumes a C library. */
#include <stdio.h>
#include <stdlib.h>
#include <string.h>
#include "../../include/vaskunoor.h"

enum { READ, ALLOCATE, CHECK_ASSIGNMENT, MAKE_TABLES, CHECK_TABLES, CALLS };
enum { BUDGET = 100, AROUND = 16, MARK = 0xC3 };
static int wrong;

struct area {
    uint8_t *at;
    vaskunoor_size size;
};

/* the areas of a call; `out` is that of allocate and make_tables */
struct areas {
    struct area request, assignment, table, out, details;
};

static uint32_t run(int call, const struct areas *a) {
    switch (call) {
    case READ:
        return vaskunoor_read(a->request.at, a->request.size, a->details.at, a->details.size);
    case ALLOCATE:
        return vaskunoor_allocate(a->request.at, a->request.size, BUDGET, a->out.at, a->out.size, a->details.at, a->details.size);
    case CHECK_ASSIGNMENT:
        return vaskunoor_check_assignment(a->request.at, a->request.size, a->assignment.at, a->assignment.size,
                                          a->details.at, a->details.size);
    case MAKE_TABLES:
        return vaskunoor_make_tables(a->request.at, a->request.size, a->assignment.at, a->assignment.size, a->out.at, a->out.size,
                                     a->details.at, a->details.size);
    default:
        return vaskunoor_check_tables(a->request.at, a->request.size, a->assignment.at, a->assignment.size,
                                      a->table.at, a->table.size, a->details.at, a->details.size);
    }
}

static void expect(const char *what, int call, uint32_t number, uint32_t wanted) {
    if (number == wanted) return;
    printf("call %d, %s: answers %u in place of %u\n", call, what, (unsigned)number, (unsigned)wanted);
    wrong = 1;
}

/* ---- the files: net P of examples/net-p */

static uint8_t request[] = {
    10, 0, 1, 0, 3, 0, 3, 0, 0, 1, 1, 2, 2, 1, 8, 0, 2, 0, 4, 1, 2, 0, 0, 0, 1, 0, 6, 0, 2, 0, 6, 2, 1, 0, 1, 0, 0, 0, 5, 0,
};
static uint8_t assignment[] = { 1, 0, 3, 0, 0, 2, 0, 3, 0, 0, 2, 0, 0, 5, 0 };
static uint8_t table[] = {
    8, 0, 4, 0, 0, 4, 0, 0, 255, 255, 0, 0, 8, 0, 4, 0, 1, 4, 1, 0, 0, 0, 1, 0,
    8, 0, 4, 0, 1, 6, 0, 0, 255, 255, 1, 0, 8, 0, 4, 0, 1, 6, 2, 0, 255, 255, 1, 0, 0, 0, 5, 0,
};
static uint8_t details[VASKUNOOR_DETAILS_SIZE];

static struct areas none(void) {
    struct areas a;
    memset(&a, 0, sizeof a);
    a.request.at = a.assignment.at = a.table.at = a.out.at = a.details.at = NULL;
    return a;
}

static struct areas net_p(void) {
    struct areas a = none();
    a.request.at = request, a.request.size = sizeof request;
    a.assignment.at = assignment, a.assignment.size = sizeof assignment;
    a.table.at = table, a.table.size = sizeof table;
    a.details.at = details, a.details.size = sizeof details;
    return a;
}

/* ---- null pointers */

static void nulls(void) {
    static const struct area null = { NULL, 0 };
    struct areas all = none();
    for (int call = 0; call < CALLS; call++) {
        struct areas a = net_p();
        expect("all areas null", call, run(call, &all), VASKUNOOR_TOO_SHORT);
        a.details = null;
        expect("no details", call, run(call, &a), VASKUNOOR_TOO_SHORT);
        a = net_p(), a.request = null;
        expect("no request", call, run(call, &a), VASKUNOOR_CUT);
        a = net_p(), a.assignment = null;
        if (call >= CHECK_ASSIGNMENT) expect("no assignment", call, run(call, &a), VASKUNOOR_CUT);
        a = net_p(), a.table = null;
        if (call == CHECK_TABLES) expect("no table", call, run(call, &a), VASKUNOOR_CUT);
        a = net_p();
        if (call == ALLOCATE || call == MAKE_TABLES) expect("no output area", call, run(call, &a), VASKUNOOR_TOO_SHORT);
    }
}

/* ---- odd addresses */

/* a copy of an area at some distance from an address that suits any type, with marks before and behind it */
static struct area moved(const struct area *from, size_t away) {
    struct area to;
    uint8_t *whole = malloc(from->size + 2 * AROUND);
    if (!whole) exit(2);
    memset(whole, MARK, from->size + 2 * AROUND);
    to.at = whole + away;
    to.size = from->size;
    if (from->size > 0) memcpy(to.at, from->at, from->size);
    return to;
}

/* is the area what it should be, and are the marks still there? */
static int is_same(const struct area *a, size_t away, const uint8_t *wanted) {
    int same = memcmp(a->at, wanted, a->size) == 0;
    for (size_t i = 0; i < away; i++) same &= a->at[-1 - (long)i] == MARK;
    for (size_t i = 0; i < 2 * AROUND - away; i++) same &= a->at[a->size + i] == MARK;
    free(a->at - away);
    return same;
}

static void try_moved(int call, const struct areas *a, size_t away, uint32_t number, const uint8_t *out, const uint8_t *told) {
    struct areas m;
    m.request = moved(&a->request, away);
    m.assignment = moved(&a->assignment, away);
    m.table = moved(&a->table, away);
    m.out = moved(&a->out, away);
    m.details = moved(&a->details, away);
    expect("areas elsewhere", call, run(call, &m), number);
    int same = is_same(&m.request, away, a->request.at);
    same &= is_same(&m.assignment, away, a->assignment.at);
    same &= is_same(&m.table, away, a->table.at);
    same &= is_same(&m.out, away, out);
    same &= is_same(&m.details, away, told);
    if (same) return;
    printf("call %d: with areas %u bytes from an aligned address, other bytes\n", call, (unsigned)away);
    wrong = 1;
}

static void odd(void) {
    static uint8_t blank[sizeof table], out[sizeof table];
    for (int call = 0; call < CALLS; call++) {
        struct areas a = net_p();
        a.out.at = out, a.out.size = call == ALLOCATE ? sizeof assignment : call == MAKE_TABLES ? sizeof table : 0;
        memset(out, 0, sizeof out);
        uint32_t number = run(call, &a);
        expect("net P", call, number, VASKUNOOR_DONE);
        a.out.at = blank;
        for (size_t away = 1; away <= AROUND; away++) try_moved(call, &a, away, number, out, details);
    }
}

int main(int words, char **word) {
    if (words > 1 && strcmp(word[1], "null") == 0)
        nulls();
    else
        odd();
    return wrong;
}
