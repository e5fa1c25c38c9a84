/* Plans as files, for the programs beside it, and a clock. Assumes a C library with clock_gettime. */
#ifndef PLANS_H
#define PLANS_H
#include <stdio.h>
#include <stdlib.h>
#include <time.h>
#include "../include/vaskunoor.h"
#include "plain.h"

static uint8_t request[8192], assignment[2048], table[65536], details[VASKUNOOR_DETAILS_SIZE];
static size_t request_size, assignment_size, table_size;

static double now(void) {
    struct timespec t;
    clock_gettime(CLOCK_MONOTONIC, &t);
    return t.tv_sec + t.tv_nsec * 1e-9;
}

static uint32_t detail(int i) {
    const uint8_t *d = details + 4 * i;
    return d[0] | d[1] << 8 | d[2] << 16 | (uint32_t)d[3] << 24;
}

/* ---- plans as files */

static void put(uint8_t *area, size_t *size, int byte) { area[(*size)++] = byte; }
static void put_word(uint8_t *area, size_t *size, int x) { put(area, size, x & 255); put(area, size, x >> 8); }

static void write_plan(const struct plan *p) {
    request_size = assignment_size = 0;
    put_word(request, &request_size, 4 + 2 * p->buffers);
    put_word(request, &request_size, 1);
    put_word(request, &request_size, 64);
    put_word(request, &request_size, p->buffers);
    for (int b = 0; b < p->buffers; b++) { put(request, &request_size, p->from[b]); put(request, &request_size, p->to[b]); }
    for (int c = 0; c < p->circuits; c++) {
        put_word(request, &request_size, 4 + 2 * p->hops[c]);
        put_word(request, &request_size, 2);
        put(request, &request_size, p->cycle[c]);
        put(request, &request_size, p->demand[c]);
        put(request, &request_size, p->hops[c]);
        put(request, &request_size, 0);
        for (int j = 0; j < p->hops[c]; j++) put_word(request, &request_size, p->path[c][j]);
        put_word(assignment, &assignment_size, p->demand[c]);
        put_word(assignment, &assignment_size, 3);
        for (int a = 0; a < 32; a++) if (p->mask[c] >> a & 1) put(assignment, &assignment_size, a);
    }
    put_word(request, &request_size, 0);
    put_word(request, &request_size, 5);
    put_word(assignment, &assignment_size, 0);
    put_word(assignment, &assignment_size, 5);
}

/* n circuits on one buffer, with this cycle and demand */
static void one_buffer(struct plan *p, int n, int cycle, int demand) {
    memset(p, 0, sizeof *p);
    p->buffers = 1;
    p->to[0] = 1;
    p->circuits = n;
    for (int c = 0; c < n; c++) { p->cycle[c] = cycle; p->demand[c] = demand; p->hops[c] = 1; }
}

/* n rings of 16 routers, each walked whole by four circuits; with a demand of 8 they take every slot. Either all have cycle 32 (512 lines
 * a ring where the demand is 8), or two of them have cycle 16 and half the demand (384 lines) */
static void rings(struct plan *p, int n, int demand, int mixed) {
    memset(p, 0, sizeof *p);
    p->buffers = 16 * n;
    p->circuits = 4 * n;
    for (int r = 0; r < n; r++) {
        int back = r & 1, first = r / 2 * 16;
        for (int i = 0; i < 16; i++) {
            p->from[16 * r + i] = first + (back ? (24 - i) % 16 : i);
            p->to[16 * r + i] = first + (back ? (23 - i) % 16 : (i + 1) % 16);
        }
        for (int k = 0; k < 4; k++) {
            int c = 4 * r + k, half = mixed && k > 1;
            p->cycle[c] = half ? 16 : 32;
            p->demand[c] = half ? demand / 2 : demand;
            p->hops[c] = 16;
            p->mask[c] = (p->demand[c] == 8 ? 0x11111111u : (1u << 4 * p->demand[c]) / 15) << k;
            for (int j = 0; j < 16; j++) p->path[c][j] = 16 * r + j;
        }
    }
}

/* 32 circuits, each alone on a buffer and with every slot of its cycle: the search calls itself once for each of the 1,024 offsets */
static void apart(struct plan *p) {
    memset(p, 0, sizeof *p);
    p->buffers = p->circuits = 32;
    for (int c = 0; c < 32; c++) {
        p->from[c] = c;
        p->to[c] = 32 + c;
        p->cycle[c] = p->demand[c] = 32;
        p->hops[c] = 1;
        p->mask[c] = UINT32_MAX;
        p->path[c][0] = c;
    }
}

/* the buffer of the line's router that is not the line's own: it belongs to the ring that runs the other way */
static int other_buffer(const struct plan *p, const uint8_t *line) {
    int out = word_at(line + 10), other = out;
    for (int b = 0; b < p->buffers; b++) if (b != out && p->from[b] == p->from[out]) other = b;
    return other;
}

/* the last line is missing: the end record stands in its place */
static void drop_last_line(void) {
    memmove(table + table_size - 16, table + table_size - 4, 4);
    table_size -= 12;
}
#endif
