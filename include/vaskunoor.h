/* The calls for C and C++: library vaskunoor, archive libvaskunoor.a. Assumes a little-endian machine, and memcpy and memset at the link.
 *
 * Each call returns a number (below) and writes four details, 4 bytes each and little-endian, to `details`, refusals too. Where
 * `details_size` is not 16 a call returns 17 before all else and writes nothing. None asks anything of the bytes: every file, however
 * broken, gets an answer.
 *
 * What a caller owes: no two areas of a call overlap, and each pointer is good for the size that follows it. A null pointer is allowed
 * wherever its size is 0, as with an empty std::vector.
 *
 * What the code stands on: nothing but memcpy and memset. It has no data and no bss, keeps no pointer and no state from call to call, and
 * takes nothing from a heap; so every call is reentrant, and threads may call at the same time. Its whole memory is the caller's areas and
 * the stack, which is told below. It asks no alignment of any area.
 *
 * What differs from machine to machine: nothing in what a call returns and writes. There is no floating point arithmetic, but
 *   x86-64   moves bytes through SSE registers, so that an interrupt handler or a kernel must save them first
 *   aarch64  does so through NEON registers; at an address that may be odd it reads no more than a byte, so the MMU may be off
 *   riscv64  uses whole-number registers only, and reads no more than a byte at an address that may be odd
 *   wasm32   fills and copies by its own instructions (bulk memory) in place of memset and memcpy; pointers have 32 bits, sizes 64 */
#ifndef VASKUNOOR_H
#define VASKUNOOR_H

#include <stddef.h>
#include <stdint.h>

#ifdef __cplusplus
extern "C" {
#endif

#define VASKUNOOR_VERSION "0.2.0"
#define VASKUNOOR_VERSION_MAJOR 0
#define VASKUNOOR_VERSION_MINOR 2
#define VASKUNOOR_VERSION_PATCH 0

/* A size has 64 bits on every machine, because what is proved of the code speaks of such sizes; on wasm32 size_t has only 32. */
#if defined __wasm32__
typedef uint64_t vaskunoor_size;
#else
typedef size_t vaskunoor_size;
#endif

#define VASKUNOOR_DETAILS_SIZE 16

/* The longest files that are any use, in bytes. An output area of that size has room for every answer. */
#define VASKUNOOR_REQUEST_MOST 1548
#define VASKUNOOR_ASSIGNMENT_MOST 1156
#define VASKUNOOR_TABLE_MOST 49156

/* The stack that a call takes at most, in bytes, and at least a quarter more: what was measured on x86-64, aarch64 and riscv64, on files
 * of full size and on refused ones, with the most of the three told here. The compiler was that of an earlier kit; with every kit
 * tests/archive tries each call on just its constant. The first memcpy or memset of a program that is linked dynamically took 3,168 bytes
 * more, for the linker to find it; that is in the constants too. On wasm32 they hold for the stack in linear memory. */
#define VASKUNOOR_READ_STACK 8192              /* measured: 968 */
#define VASKUNOOR_ALLOCATE_STACK 491520        /* measured: 391,280, with 32 circuits that ask for all of their 32 slots */
#define VASKUNOOR_CHECK_ASSIGNMENT_STACK 16384 /* measured: 9,608 */
#define VASKUNOOR_MAKE_TABLES_STACK 16384      /* measured: 9,672 */
#define VASKUNOOR_CHECK_TABLES_STACK 28672     /* measured: 18,280 */

/* The numbers, each with its details in order; details that are not named are 0. With any number but VASKUNOOR_DONE the output area
 * keeps its bytes. "File" is 1 for the request, 2 for the assignment, 3 for the table; "byte" is where the record in question starts. */
#define VASKUNOOR_DONE 0        /* done: visits (allocate only), then bytes written (allocate and make_tables) */
#define VASKUNOOR_CUT 1         /* a record or the end record is missing or cut short: file, byte */
#define VASKUNOOR_KIND 2        /* a record of a kind not allowed here: file, byte */
#define VASKUNOOR_LENGTH 3      /* a length wrong for the kind or its counts: file, byte */
#define VASKUNOOR_COUNT 4       /* a count outside its size: file, byte */
#define VASKUNOOR_VALUE 5       /* a nonzero spare byte, an unknown router or buffer, a bad buffer pair: file, byte */
#define VASKUNOOR_PATH 6        /* a broken path: file, byte */
#define VASKUNOOR_AFTER_END 7   /* bytes after the end record: file, first such byte */
#define VASKUNOOR_OFFSETS 8     /* wrong offsets, or too few or too many records of them: file, byte */
#define VASKUNOOR_LINE 9        /* a line that no table of this network can have: file, byte */
#define VASKUNOOR_NO_ROOM 10    /* no assignment without a clash exists: visits */
#define VASKUNOOR_UNFINISHED 11 /* the search needs more visits than the budget: visits, equal to the budget */
#define VASKUNOOR_CLASH 12      /* two circuits clash: lower circuit, higher circuit, slot, buffer or 128 + router for its local inport */
#define VASKUNOOR_NO_LINE 13    /* no line meets a series: circuit, offset, hop, 65535 */
#define VASKUNOOR_IN_PART 14    /* a line meets a series without serving it whole: circuit, offset, hop, first such line */
#define VASKUNOOR_TWO_LINES 15  /* two or more lines meet a series: circuit, offset, hop, second such line */
#define VASKUNOOR_ELSEWHERE 16  /* the line of a series leads elsewhere: circuit, offset, hop, line */
#define VASKUNOOR_TOO_SHORT 17  /* the output area is too short: bytes needed; or `details_size` is not 16: nothing written */

/* Reads a request: the numbers 0 to 7. */
uint32_t vaskunoor_read(const uint8_t *request, vaskunoor_size request_size,
                        uint8_t *details, vaskunoor_size details_size);

/* Finds the first assignment without a clash, in at most `budget` visits, and writes it to `assignment`. */
uint32_t vaskunoor_allocate(const uint8_t *request, vaskunoor_size request_size, uint32_t budget,
                            uint8_t *assignment, vaskunoor_size assignment_size,
                            uint8_t *details, vaskunoor_size details_size);

/* Done exactly where no two circuits ever clash. */
uint32_t vaskunoor_check_assignment(const uint8_t *request, vaskunoor_size request_size,
                                    const uint8_t *assignment, vaskunoor_size assignment_size,
                                    uint8_t *details, vaskunoor_size details_size);

/* Writes the lines that the assignment needs to `table`. */
uint32_t vaskunoor_make_tables(const uint8_t *request, vaskunoor_size request_size,
                               const uint8_t *assignment, vaskunoor_size assignment_size,
                               uint8_t *table, vaskunoor_size table_size,
                               uint8_t *details, vaskunoor_size details_size);

/* Done exactly where these lines lead every packet of the assignment to its buffers for ever, and each line serves a series whole or
 * not at all. */
uint32_t vaskunoor_check_tables(const uint8_t *request, vaskunoor_size request_size,
                                const uint8_t *assignment, vaskunoor_size assignment_size,
                                const uint8_t *table, vaskunoor_size table_size,
                                uint8_t *details, vaskunoor_size details_size);

#ifdef __cplusplus
}
#endif
#endif
