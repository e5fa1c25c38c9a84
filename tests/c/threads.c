/* Threads: the table check on a thread whose stack is the header's constant and what a thread needs for itself, and then two threads that
 * call at the same time, each on a plan of its own. Prints what is wrong; the exit status is 0 where nothing is. Assumes POSIX threads. */
#define _GNU_SOURCE
#include <limits.h>
#include <pthread.h>
#include "../../bench/plans.h"

enum { ROUNDS = 200 };

/* a plan's files, room for what is made of them again, and how often a call answered wrong */
struct files {
    uint8_t request[VASKUNOOR_REQUEST_MOST], assignment[VASKUNOOR_ASSIGNMENT_MOST], table[VASKUNOOR_TABLE_MOST];
    size_t request_size, assignment_size, table_size;
    uint8_t slots[VASKUNOOR_ASSIGNMENT_MOST], lines[VASKUNOOR_TABLE_MOST];
    int wrong;
};

static struct files full, apart_files;

static void keep(struct files *f, const struct plan *p) {
    write_plan(p);
    memcpy(f->request, request, f->request_size = request_size);
    memcpy(f->assignment, assignment, f->assignment_size = assignment_size);
    f->wrong = vaskunoor_make_tables(f->request, f->request_size, f->assignment, f->assignment_size, f->table, sizeof f->table,
                                     details, sizeof details) != VASKUNOOR_DONE;
    f->table_size = detail(0);
}

static void *check_once(void *given) {
    struct files *f = given;
    uint8_t told[VASKUNOOR_DETAILS_SIZE];
    f->wrong += vaskunoor_check_tables(f->request, f->request_size, f->assignment, f->assignment_size, f->table, f->table_size,
                                       told, sizeof told) != VASKUNOOR_DONE;
    return NULL;
}

/* every answer and every byte of the table, again and again */
static void *work(void *given) {
    struct files *f = given;
    uint8_t told[VASKUNOOR_DETAILS_SIZE];
    for (int round = 0; round < ROUNDS; round++) {
        f->wrong += vaskunoor_allocate(f->request, f->request_size, 100000, f->slots, sizeof f->slots, told, sizeof told)
                    != VASKUNOOR_DONE;
        f->wrong += vaskunoor_make_tables(f->request, f->request_size, f->assignment, f->assignment_size, f->lines, sizeof f->lines,
                                          told, sizeof told) != VASKUNOOR_DONE;
        f->wrong += memcmp(f->lines, f->table, f->table_size) != 0;
        check_once(f);
    }
    return NULL;
}

static int small_thread(void) {
    pthread_attr_t how;
    pthread_t thread;
    pthread_attr_init(&how);
    if (pthread_attr_setstacksize(&how, VASKUNOOR_CHECK_TABLES_STACK + PTHREAD_STACK_MIN) != 0) return 1;
    if (pthread_create(&thread, &how, check_once, &full) != 0) return 1;
    pthread_join(thread, NULL);
    return full.wrong;
}

static int two_threads(void) {
    pthread_t one, other;
    if (pthread_create(&one, NULL, work, &full) != 0 || pthread_create(&other, NULL, work, &apart_files) != 0) return 1;
    pthread_join(one, NULL);
    pthread_join(other, NULL);
    return full.wrong + apart_files.wrong;
}

int main(int words, char **word) {
    static struct plan p;
    rings(&p, 8, 8, 0);
    keep(&full, &p);
    apart(&p);
    keep(&apart_files, &p);
    int wrong = words > 1 && strcmp(word[1], "small") == 0 ? small_thread() : two_threads();
    if (wrong) printf("%d wrong answers\n", wrong);
    return wrong != 0;
}
