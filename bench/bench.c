/* Times the proved jobs against a plain program, in one run and on the same inputs, and measures their stack. Assumes nothing of the
 * machine but a C library with clock_gettime and ucontext. */
#define _GNU_SOURCE
#include <ucontext.h>
#include "plans.h"

/* ---- the search */

enum { ROUNDS = 10 };
static struct plain_search plain;

static void search(const char *name, const struct plan *p, uint32_t budget) {
    write_plan(p);
    double best = 1e9, plain_best = 1e9;
    uint32_t number = 0;
    int found = 0;
    for (int round = 0; round < ROUNDS; round++) {
        fprintf(stderr, "\r%s: round %d of %d", name, round + 1, ROUNDS);
        double t = now();
        number = vaskunoor_allocate(request, request_size, budget, assignment, sizeof assignment, details, sizeof details);
        t = now() - t;
        if (t < best) best = t;
        t = now();
        memset(&plain, 0, sizeof plain);
        plain.p = p;
        plain.budget = budget;
        plain_fill(&plain);
        found = plain_enter(&plain, 0);
        t = now() - t;
        if (t < plain_best) plain_best = t;
    }
    fprintf(stderr, "\n");
    if (plain.visits != detail(0) || number != (found < 0 ? 11u : 10u)) { printf("%s: the two disagree\n", name); exit(1); }
    printf("%s: answer %u, %u visits; proved %.3f s, %.1f million visits a second; plain %.3f s, %.1f; share %.2f\n", name, number,
           detail(0), best, detail(0) / best / 1e6, plain_best, detail(0) / plain_best / 1e6, plain_best / best);
}

/* ---- the checks */

enum { CHECK_ROUNDS = 200, PLAIN_ROUNDS = 20 };
struct times { double check, plain, assigned; };

/* the table check on the table as it stands, which must answer this number, as the plain program does */
static double table_check(const struct plan *p, int lines, uint32_t number) {
    double best = 1e9;
    for (int round = 0; round < CHECK_ROUNDS; round++) {
        double t = now();
        uint32_t a = vaskunoor_check_tables(request, request_size, assignment, assignment_size, table, table_size, details, sizeof details);
        t = now() - t;
        if (t < best) best = t;
        if (a != number) { printf("the table check answers %u in place of %u\n", a, number); exit(1); }
    }
    if ((uint32_t)plain_check(p, table, lines) != number) { printf("the plain check does not answer %u\n", number); exit(1); }
    return best;
}

/* tables that are refused at their last series: its line leads to the buffer of the ring that runs the other way, and then it is missing */
static void refusals(const struct plan *p, int lines) {
    uint8_t *last = table + 12 * (lines - 1);
    last[10] = other_buffer(p, last);
    double astray = table_check(p, lines, 16);
    drop_last_line();
    double missing = table_check(p, lines - 1, 13);
    printf("%d circuits, %d lines, the last led elsewhere: table check %.3f ms; the last missing: %.3f ms\n", p->circuits, lines,
           astray * 1e3, missing * 1e3);
}

static struct times checks(int n, int demand, int mixed) {
    static struct plan p;
    struct times best = {1e9, 1e9, 1e9};
    rings(&p, n, demand, mixed);
    write_plan(&p);
    uint32_t made = vaskunoor_make_tables(request, request_size, assignment, assignment_size, table, sizeof table, details, sizeof details);
    table_size = detail(0);
    int lines = (table_size - 4) / 12;
    if (made != 0 || lines != (mixed ? 48 : 64) * n * demand) { printf("no table: %u\n", made); exit(1); }
    best.check = table_check(&p, lines, 0);
    for (int round = 0; round < CHECK_ROUNDS; round++) {
        double t = now();
        uint32_t b = vaskunoor_check_assignment(request, request_size, assignment, assignment_size, details, sizeof details);
        t = now() - t;
        if (t < best.assigned) best.assigned = t;
        if (b) { printf("a good plan was refused: %u\n", b); exit(1); }
    }
    for (int round = 0; round < PLAIN_ROUNDS; round++) {
        double t = now();
        plain_check(&p, table, lines);
        t = now() - t;
        if (t < best.plain) best.plain = t;
    }
    printf("%d circuits%s, %d lines: table check %.3f ms, plain %.3f ms, %.1f times; assignment check %.3f ms\n", p.circuits,
           mixed ? " of cycles 32 and 16" : "", lines,
           best.check * 1e3, best.plain * 1e3, best.plain / best.check, best.assigned * 1e3);
    if (n > 1) refusals(&p, lines);
    return best;
}

/* ---- the stack: the call runs on a stack of its own that was painted before */

enum { STACK = 4 << 20, PAINT = 0xA5 };
static uint8_t *stack;
static ucontext_t here, there;

static size_t stack_of(void (*call)(void)) {
    memset(stack, PAINT, STACK);
    getcontext(&there);
    there.uc_stack.ss_sp = stack;
    there.uc_stack.ss_size = STACK;
    there.uc_link = &here;
    makecontext(&there, call, 0);
    swapcontext(&here, &there);
    size_t untouched = 0;
    while (untouched < STACK && stack[untouched] == PAINT) untouched++;
    return STACK - untouched;
}

static void do_check(void) {
    vaskunoor_check_tables(request, request_size, assignment, assignment_size, table, table_size, details, sizeof details);
}

static void do_allocate(void) {
    vaskunoor_allocate(request, request_size, 1000000, assignment, sizeof assignment, details, sizeof details);
}

int main(void) {
    static struct plan p;
    one_buffer(&p, 5, 13, 3);
    search("no room, 5 circuits D 13 N 3 on one buffer", &p, UINT32_MAX);
    one_buffer(&p, 11, 10, 1);
    search("no room, 11 circuits D 10 N 1 on one buffer", &p, UINT32_MAX);
    one_buffer(&p, 32, 31, 1);
    search("budget 200 million, 32 circuits D 31 N 1 on one buffer", &p, 200000000);

    struct times few = checks(1, 8, 1), thin = checks(8, 2, 1), full = checks(8, 8, 1);
    printf("from 384 to 3072 lines, 4 circuits to 32: table check %.1f times the time, assignment check %.1f\n", full.check / few.check, full.assigned / few.assigned);
    printf("from 768 to 3072 lines, 32 circuits both: table check %.1f times the time, assignment check %.1f\n", full.check / thin.check, full.assigned / thin.assigned);
    few = checks(1, 8, 0), thin = checks(8, 1, 0), full = checks(8, 8, 0);
    printf("from 512 to 4096 lines, 4 circuits to 32: table check %.1f times the time, assignment check %.1f\n", full.check / few.check, full.assigned / few.assigned);
    printf("from 512 to 4096 lines, 32 circuits both: table check %.1f times the time, assignment check %.1f\n", full.check / thin.check, full.assigned / thin.assigned);

    stack = malloc(STACK);
    if (!stack) return 1;
    size_t checking = stack_of(do_check);
    apart(&p);
    write_plan(&p);
    size_t allocating = stack_of(do_allocate);
    printf("stack of the table check: %zu bytes; of an allocation of %u visits: %zu bytes\n", checking, detail(0), allocating);
    return 0;
}
