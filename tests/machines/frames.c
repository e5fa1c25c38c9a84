/* The library in a process of its own, so that the archive of another machine can be tried under an emulator: calls come in as frames on
 * standard input, answers go out on standard output. A frame is the call, the budget and five lengths, 4 bytes each and little-endian,
 * then five areas: request, assignment, table, output, details. An answer is the number, 4 bytes, then the output and the details area as
 * the call left them. Assumes a little-endian machine and a board that is a process (examples/boot/linux.c), and no C library. */
#include "../../include/vaskunoor.h"
#include "../../examples/boot/board.h"

enum { READ, ALLOCATE, CHECK_ASSIGNMENT, MAKE_TABLES, CHECK_TABLES };
enum { REQUEST, ASSIGNMENT, TABLE, OUTPUT, DETAILS, AREAS };
enum { AREA_MOST = 1 << 18 };

struct head {
    uint32_t call;
    uint32_t budget;
    uint32_t size[AREAS];
};

static uint8_t area[AREAS][AREA_MOST];

/* all of it, or 0 where the input ends */
static int take(void *to, size_t size) {
    uint8_t *at = to;
    while (size > 0) {
        long got = board_read(at, size);
        if (got <= 0) return 0;
        at += got;
        size -= (size_t)got;
    }
    return 1;
}

static int give(const void *from, size_t size) {
    const uint8_t *at = from;
    while (size > 0) {
        long given = board_write(at, size);
        if (given <= 0) return 0;
        at += given;
        size -= (size_t)given;
    }
    return 1;
}

static int take_areas(const struct head *head) {
    for (int i = 0; i < AREAS; i++)
        if (head->size[i] > AREA_MOST || !take(area[i], head->size[i])) return 0;
    return 1;
}

static uint32_t answer(const struct head *head) {
    const uint32_t *size = head->size;
    switch (head->call) {
    case READ:
        return vaskunoor_read(area[REQUEST], size[REQUEST], area[DETAILS], size[DETAILS]);
    case ALLOCATE:
        return vaskunoor_allocate(area[REQUEST], size[REQUEST], head->budget, area[OUTPUT], size[OUTPUT],
                                  area[DETAILS], size[DETAILS]);
    case CHECK_ASSIGNMENT:
        return vaskunoor_check_assignment(area[REQUEST], size[REQUEST], area[ASSIGNMENT], size[ASSIGNMENT],
                                          area[DETAILS], size[DETAILS]);
    case MAKE_TABLES:
        return vaskunoor_make_tables(area[REQUEST], size[REQUEST], area[ASSIGNMENT], size[ASSIGNMENT],
                                     area[OUTPUT], size[OUTPUT], area[DETAILS], size[DETAILS]);
    default:
        return vaskunoor_check_tables(area[REQUEST], size[REQUEST], area[ASSIGNMENT], size[ASSIGNMENT],
                                      area[TABLE], size[TABLE], area[DETAILS], size[DETAILS]);
    }
}

int program(void) {
    struct head head;
    while (take(&head, sizeof head)) {
        if (head.call > CHECK_TABLES || !take_areas(&head)) return 1;
        uint32_t number = answer(&head);
        if (!give(&number, sizeof number) || !give(area[OUTPUT], head.size[OUTPUT])
            || !give(area[DETAILS], head.size[DETAILS])) return 1;
    }
    return 0;
}
