/* Boot code that starts the cores only with a table that is right: three byte areas as they would stand in the chip's flash, one call of
 * the table check, and then a start or a halt that says why. Here the areas hold a small net (examples/net-p), and three tables for it
 * are tried. Assumes no C library: a board with a console (board.h), and VASKUNOOR_CHECK_TABLES_STACK bytes of stack. */
#include "../../include/vaskunoor.h"
#include "board.h"

/* three routers; X: every 4 slots over buffers 0 and 1; Y: twice every 6 slots over buffer 1 */
static const uint8_t request[] = {
    10, 0, 1, 0, 3, 0, 3, 0, 0, 1, 1, 2, 2, 1,
    8, 0, 2, 0, 4, 1, 2, 0, 0, 0, 1, 0,
    6, 0, 2, 0, 6, 2, 1, 0, 1, 0,
    0, 0, 5, 0,
};

/* X in slot 0, Y in slots 0 and 2 */
static const uint8_t assignment[] = {
    1, 0, 3, 0, 0,
    2, 0, 3, 0, 0, 2,
    0, 0, 5, 0,
};

/* each line: router, period, slot, spare, in, out */
static const uint8_t table[] = {
    8, 0, 4, 0, 0, 4, 0, 0, 255, 255, 0, 0,
    8, 0, 4, 0, 1, 4, 1, 0, 0, 0, 1, 0,
    8, 0, 4, 0, 1, 6, 0, 0, 255, 255, 1, 0,
    8, 0, 4, 0, 1, 6, 2, 0, 255, 255, 1, 0,
    0, 0, 5, 0,
};

struct meaning {
    const char *number;
    const char *details[4];
};

#define RECORD { "file", "byte" }
#define SERIES { "circuit", "offset", "hop", "line" }

/* what the table check can answer */
static const struct meaning meanings[] = {
    [VASKUNOOR_CUT] = { "a record is missing or cut short", RECORD },
    [VASKUNOOR_KIND] = { "a record of a kind not allowed here", RECORD },
    [VASKUNOOR_LENGTH] = { "a record of a wrong length", RECORD },
    [VASKUNOOR_COUNT] = { "a count outside its size", RECORD },
    [VASKUNOOR_VALUE] = { "a spare byte, router, buffer or pair is wrong", RECORD },
    [VASKUNOOR_PATH] = { "a broken path", RECORD },
    [VASKUNOOR_AFTER_END] = { "bytes after the end record", RECORD },
    [VASKUNOOR_OFFSETS] = { "wrong offsets", RECORD },
    [VASKUNOOR_LINE] = { "a line this network cannot have", RECORD },
    [VASKUNOOR_CLASH] = { "two circuits clash", { "lower", "higher", "slot", "buffer or inport" } },
    [VASKUNOOR_NO_LINE] = { "no line meets a series", SERIES },
    [VASKUNOOR_IN_PART] = { "a line serves a series in part", SERIES },
    [VASKUNOOR_TWO_LINES] = { "two lines meet a series", SERIES },
    [VASKUNOOR_ELSEWHERE] = { "a line leads elsewhere", SERIES },
    [VASKUNOOR_TOO_SHORT] = { "the area for the details has a wrong size", { 0 } },
};

/* ---- the console */

static void say(const char *text) {
    size_t size = 0;
    while (text[size])
        size++;
    board_write(text, size);
}

static void say_number(uint32_t number) {
    char digits[11];
    char *at = digits + sizeof digits - 1;
    *at = 0;
    do {
        *--at = (char)('0' + number % 10);
        number /= 10;
    } while (number);
    say(at);
}

/* ---- a start or a halt */

static uint32_t detail(const uint8_t *details, int which) {
    const uint8_t *bytes = details + 4 * which;
    return bytes[0] | (uint32_t)bytes[1] << 8 | (uint32_t)bytes[2] << 16 | (uint32_t)bytes[3] << 24;
}

static void start_cores(void) {
    say("cores started\n");
}

static void halt(uint32_t number, const uint8_t *details) {
    const struct meaning *meaning = &meanings[number];
    say("halted with ");
    say_number(number);
    say(": ");
    say(meaning->number);
    for (int i = 0; i < 4 && meaning->details[i]; i++) {
        say(", ");
        say(meaning->details[i]);
        say(" ");
        say_number(detail(details, i));
    }
    say("\n");
}

static void boot(const char *what, const uint8_t *lines, size_t lines_size) {
    uint8_t details[VASKUNOOR_DETAILS_SIZE];
    say(what);
    say(": ");
    uint32_t number = vaskunoor_check_tables(request, sizeof request, assignment, sizeof assignment, lines, lines_size,
                                             details, sizeof details);
    if (number == VASKUNOOR_DONE)
        start_cores();
    else
        halt(number, details);
}

/* where the slot of line 1 stands: lines are records of 12 bytes, and the slot is the third byte behind a record's head */
#define SLOT_OF_LINE_1 (12 + 4 + 2)

int program(void) {
    uint8_t flipped[sizeof table];
    for (size_t i = 0; i < sizeof table; i++)
        flipped[i] = table[i];
    flipped[SLOT_OF_LINE_1] ^= 2;
    boot("the table as it was made", table, sizeof table);
    boot("a bit flipped", flipped, sizeof flipped);
    boot("the last byte missing", table, sizeof table - 1);
    return 0;
}
