/* Runs one call on a stack of exactly its constant in the header, with an unreadable page directly below it: on full-size plans, on the
 * deepest allocation, and on refused and empty files. The first word names the call; a second, if there is one, is another size for the
 * stack in KiB. A call that goes deeper ends the program by a signal. Assumes a C library with mmap and ucontext. */
#define _GNU_SOURCE
#include <sys/mman.h>
#include <ucontext.h>
#include <unistd.h>
#include "../../bench/plans.h"

static uint32_t number;
static size_t room, lines_size;
static ucontext_t here, there;

/* ---- the calls, on what stands in the areas */

static void do_read(void) {
    number = vaskunoor_read(request, request_size, details, sizeof details);
}

static void do_allocate(void) {
    number = vaskunoor_allocate(request, request_size, 20000, assignment, room, details, sizeof details);
}

static void do_check_assignment(void) {
    number = vaskunoor_check_assignment(request, request_size, assignment, assignment_size, details, sizeof details);
}

static void do_make_tables(void) {
    number = vaskunoor_make_tables(request, request_size, assignment, assignment_size, table, room, details, sizeof details);
}

static void do_check_tables(void) {
    number = vaskunoor_check_tables(request, request_size, assignment, assignment_size, table, lines_size, details, sizeof details);
}

static const struct job {
    const char *name;
    size_t stack;
    void (*call)(void);
    size_t room;
} jobs[] = {
    { "read", VASKUNOOR_READ_STACK, do_read, 0 },
    { "allocate", VASKUNOOR_ALLOCATE_STACK, do_allocate, VASKUNOOR_ASSIGNMENT_MOST },
    { "check_assignment", VASKUNOOR_CHECK_ASSIGNMENT_STACK, do_check_assignment, 0 },
    { "make_tables", VASKUNOOR_MAKE_TABLES_STACK, do_make_tables, VASKUNOOR_TABLE_MOST },
    { "check_tables", VASKUNOOR_CHECK_TABLES_STACK, do_check_tables, 0 },
};

/* ---- a stack with a page below it that nothing may touch */

static uint8_t *stack;
static size_t stack_size;

static void make_stack(size_t size) {
    size_t page = (size_t)sysconf(_SC_PAGESIZE);
    uint8_t *whole = mmap(NULL, page + size, PROT_READ | PROT_WRITE, MAP_PRIVATE | MAP_ANONYMOUS, -1, 0);
    if (whole == MAP_FAILED || mprotect(whole, page, PROT_NONE) != 0) {
        printf("no stack of %zu bytes\n", size);
        exit(2);
    }
    stack = whole + page;
    stack_size = size;
}

static void expect(const struct job *job, const char *what, uint32_t wanted) {
    getcontext(&there);
    there.uc_stack.ss_sp = stack;
    there.uc_stack.ss_size = stack_size;
    there.uc_link = &here;
    makecontext(&there, job->call, 0);
    swapcontext(&here, &there);
    if (number == wanted) return;
    printf("%s, %s: answers %u in place of %u\n", job->name, what, (unsigned)number, (unsigned)wanted);
    exit(1);
}

/* ---- the files */

static int is(const struct job *job, const char *name) {
    return strcmp(job->name, name) == 0;
}

/* the table of the plan, made on the ordinary stack */
static void make_lines(void) {
    vaskunoor_make_tables(request, request_size, assignment, assignment_size, table, sizeof table, details, sizeof details);
    lines_size = detail(0);
}

/* a full-size plan, whose table has all of its 4,096 lines; first with an empty table, while memcpy may still want the dynamic linker */
static void full_size(const struct job *job, const struct plan *p) {
    write_plan(p);
    lines_size = 0;
    expect(job, "a full-size plan without a table", is(job, "check_tables") ? VASKUNOOR_CUT : VASKUNOOR_DONE);
    write_plan(p);
    make_lines();
    expect(job, "a full-size plan", VASKUNOOR_DONE);
    table[lines_size - 6] = other_buffer(p, table + lines_size - 16);
    expect(job, "a full-size plan and a wrong line", is(job, "check_tables") ? VASKUNOOR_ELSEWHERE : VASKUNOOR_DONE);
    if (is(job, "read") || is(job, "allocate")) return;
    assignment[4] = 1;
    expect(job, "a full-size plan with a clash", VASKUNOOR_CLASH);
}

/* each byte of each file wrong in turn: whatever the answer, it comes on this stack */
static void spoil(const struct job *job, uint8_t *area, size_t size, size_t step) {
    for (size_t i = 0; i < size; i += step) {
        uint8_t kept = area[i];
        area[i] ^= 1 << i % 8;
        expect(job, "a file with a bit flipped", (job->call(), number));
        area[i] = kept;
    }
}

static void refused(const struct job *job, const struct plan *p) {
    write_plan(p);
    make_lines();
    spoil(job, request, request_size, 1);
    if (is(job, "allocate")) return;
    spoil(job, assignment, assignment_size, 1);
    if (is(job, "check_tables")) spoil(job, table, lines_size, 97);
}

static void empty(const struct job *job) {
    request_size = assignment_size = lines_size = 0;
    expect(job, "empty files", VASKUNOOR_CUT);
    room = 0;
    expect(job, "empty files and no room", VASKUNOOR_CUT);
}

static void try_all(const struct job *job) {
    static struct plan p;
    room = job->room;
    rings(&p, 8, 8, 0);
    full_size(job, &p);
    refused(job, &p);
    apart(&p);
    write_plan(&p);
    make_lines();
    expect(job, "32 circuits with all of their slots", VASKUNOOR_DONE);
    one_buffer(&p, 32, 31, 1);
    write_plan(&p);
    if (is(job, "allocate")) expect(job, "a search that does not end", VASKUNOOR_UNFINISHED);
    empty(job);
}

int main(int words, char **word) {
    for (size_t i = 0; words > 1 && i < sizeof jobs / sizeof *jobs; i++)
        if (is(&jobs[i], word[1])) {
            make_stack(words > 2 ? (size_t)atol(word[2]) * 1024 : jobs[i].stack);
            try_all(&jobs[i]);
            return 0;
        }
    printf("no call of this name\n");
    return 2;
}
