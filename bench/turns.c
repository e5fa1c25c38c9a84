/* Times two archives of the proved library against each other, in one run and in turn, on the same inputs. Their calls have the prefixes
 * before_ and after_, which tests/bench gives them. Assumes a C library with clock_gettime. */
#define _GNU_SOURCE
#include "plans.h"

#define BOTH(call) extern __typeof__(call) before_##call, after_##call;
BOTH(vaskunoor_allocate)
BOTH(vaskunoor_check_assignment)
BOTH(vaskunoor_make_tables)
BOTH(vaskunoor_check_tables)

static uint8_t made[65536];

static uint32_t check_tables(int after) {
    return (after ? after_vaskunoor_check_tables : before_vaskunoor_check_tables)(
        request, request_size, assignment, assignment_size, table, table_size, details, sizeof details);
}

static uint32_t check_assignment(int after) {
    return (after ? after_vaskunoor_check_assignment : before_vaskunoor_check_assignment)(
        request, request_size, assignment, assignment_size, details, sizeof details);
}

static uint32_t make_tables(int after) {
    return (after ? after_vaskunoor_make_tables : before_vaskunoor_make_tables)(
        request, request_size, assignment, assignment_size, made, sizeof made, details, sizeof details);
}

static uint32_t budget;
static uint32_t allocate(int after) {
    return (after ? after_vaskunoor_allocate : before_vaskunoor_allocate)(
        request, request_size, budget, made, sizeof made, details, sizeof details);
}

/* the best of so many rounds of each, which begin with one and the other in turn */
static void turns(const char *what, uint32_t (*call)(int), uint32_t number, int rounds) {
    double best[2] = {1e9, 1e9};
    for (int round = 0; round < 2 * rounds; round++) {
        int after = (round ^ round >> 1) & 1;
        double t = now();
        uint32_t answer = call(after);
        t = now() - t;
        if (t < best[after]) best[after] = t;
        if (answer != number) { printf("%s: %u in place of %u\n", what, answer, number); exit(1); }
    }
    printf("  %s: %.4f ms, then %.4f ms, %.3f of the time\n", what, best[0] * 1e3, best[1] * 1e3, best[1] / best[0]);
}

static void checks(int n, int demand, int mixed) {
    static struct plan p;
    rings(&p, n, demand, mixed);
    write_plan(&p);
    make_tables(0);
    table_size = detail(0);
    memcpy(table, made, table_size);
    int lines = (table_size - 4) / 12;
    printf("%d circuits%s, %d lines\n", p.circuits, mixed ? " of cycles 32 and 16" : "", lines);
    turns("assignment check", check_assignment, 0, 2000);
    turns("table made", make_tables, 0, 2000);
    turns("table check", check_tables, 0, 2000);
    if (n == 1) return;
    table[12 * (lines - 1) + 10] = other_buffer(&p, table + 12 * (lines - 1));
    turns("table check, the last line led elsewhere", check_tables, 16, 1000);
    drop_last_line();
    turns("table check, the last line missing", check_tables, 13, 1000);
}

static void search(const char *name, int circuits, int cycle, int demand, uint32_t most, uint32_t number) {
    static struct plan p;
    one_buffer(&p, circuits, cycle, demand);
    write_plan(&p);
    budget = most;
    turns(name, allocate, number, 20);
}

int main(void) {
    printf("search\n");
    search("5 circuits D 13 N 3", 5, 13, 3, UINT32_MAX, 10);
    search("11 circuits D 10 N 1", 11, 10, 1, UINT32_MAX, 10);
    search("32 circuits D 31 N 1, budget 200 million", 32, 31, 1, 200000000, 11);
    for (int mixed = 1; mixed >= 0; mixed--) {
        checks(1, 8, mixed);
        checks(8, mixed ? 2 : 1, mixed);
        checks(8, 8, mixed);
    }
    return 0;
}
