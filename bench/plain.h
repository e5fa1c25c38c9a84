/* A plain program for the same jobs, to measure against: the walk over cells with the same pruning, and the table check that looks at
 * every line for every series. It trusts its input: it reads only what the benchmark itself built. */
#ifndef PLAIN_H
#define PLAIN_H
#include <stdint.h>
#include <string.h>

enum { CIRCUITS = 32, HOPS = 16, LINES = 4096, BUFFERS = 128 };

struct plan {
    int circuits, buffers;
    int from[BUFFERS], to[BUFFERS];
    int cycle[CIRCUITS], demand[CIRCUITS], hops[CIRCUITS], path[CIRCUITS][HOPS];
    uint32_t mask[CIRCUITS];
};

static int plain_gcd(int a, int b) { while (b) { int r = a % b; a = b; b = r; } return a; }

/* ---- the search */

struct plain_search {
    const struct plan *p;
    uint32_t barred[CIRCUITS][CIRCUITS][32]; /* [c][e][b]: the offsets of c that clash with offset b of e */
    uint32_t taken[CIRCUITS];
    uint64_t visits, budget;
};

static void plain_fill(struct plain_search *s) {
    const struct plan *p = s->p;
    for (int c = 0; c < p->circuits; c++)
        for (int e = 0; e < c; e++) {
            int g = plain_gcd(p->cycle[c], p->cycle[e]);
            for (int b = 0; b < p->cycle[e]; b++) {
                uint32_t m = 0;
                for (int a = 0; a < p->cycle[c]; a++) {
                    int hit = p->from[p->path[c][0]] == p->from[p->path[e][0]] && (a - b) % g == 0;
                    for (int j = 0; j < p->hops[c]; j++)
                        for (int k = 0; k < p->hops[e]; k++)
                            if (p->path[c][j] == p->path[e][k] && (a + j - b - k) % g == 0) hit = 1;
                    if (hit) m |= 1u << a;
                }
                s->barred[c][e][b] = m;
            }
        }
}

static int plain_cell(struct plain_search *s, int c, int a, int taken, uint32_t mask, uint32_t shut);

static int plain_enter(struct plain_search *s, int c) {
    if (c == s->p->circuits) return 1;
    uint32_t shut = 0;
    for (int e = 0; e < c; e++)
        for (uint32_t m = s->taken[e]; m; m &= m - 1) shut |= s->barred[c][e][__builtin_ctz(m)];
    return plain_cell(s, c, 0, 0, 0, shut);
}

/* 1 found, 0 none, -1 budget used up */
static int plain_cell(struct plain_search *s, int c, int a, int taken, uint32_t mask, uint32_t shut) {
    int d = s->p->cycle[c], n = s->p->demand[c];
    if (a == d) { s->taken[c] = mask; return plain_enter(s, c + 1); }
    if (taken < n && !(shut >> a & 1)) {
        if (s->visits == s->budget) return -1;
        s->visits++;
        int r = plain_cell(s, c, a + 1, taken + 1, mask | 1u << a, shut);
        if (r) return r;
    }
    if (taken + (d - a - 1) >= n) {
        if (s->visits == s->budget) return -1;
        s->visits++;
        return plain_cell(s, c, a + 1, taken, mask, shut);
    }
    return 0;
}

/* ---- the checks */

static int word_at(const uint8_t *b) { return b[0] | b[1] << 8; }

/* 0 where no two circuits clash */
static int plain_clash(const struct plan *p) {
    for (int c = 0; c < p->circuits; c++)
        for (int e = c + 1; e < p->circuits; e++) {
            int g = plain_gcd(p->cycle[c], p->cycle[e]);
            for (int a = 0; a < p->cycle[c]; a++) {
                if (!(p->mask[c] >> a & 1)) continue;
                for (int b = 0; b < p->cycle[e]; b++) {
                    if (!(p->mask[e] >> b & 1)) continue;
                    if (p->from[p->path[c][0]] == p->from[p->path[e][0]] && (a - b) % g == 0) return 12;
                    for (int j = 0; j < p->hops[c]; j++)
                        for (int k = 0; k < p->hops[e]; k++)
                            if (p->path[c][j] == p->path[e][k] && (a + j - b - k) % g == 0) return 12;
                }
            }
        }
    return 0;
}

/* one series: how many lines meet it, each tested */
static int plain_series(const struct plan *p, const uint8_t *table, int lines, int c, int a, int j) {
    int router = p->from[p->path[c][j]], in = j ? p->path[c][j - 1] : 65535, d = p->cycle[c], met = 0;
    for (int m = 0; m < lines; m++) {
        const uint8_t *l = table + 12 * m + 4;
        if (l[0] != router || word_at(l + 4) != in) continue;
        int g = plain_gcd(l[1], d);
        if ((a + j - l[2]) % g != 0) continue;
        if (g != l[1]) return 14;
        if (met) return 15;
        if (word_at(l + 6) != p->path[c][j]) return 16;
        met = 1;
    }
    return met ? 0 : 13;
}

static int plain_check(const struct plan *p, const uint8_t *table, int lines) {
    int r = plain_clash(p);
    if (r) return r;
    for (int c = 0; c < p->circuits; c++)
        for (int a = 0; a < p->cycle[c]; a++) {
            if (!(p->mask[c] >> a & 1)) continue;
            for (int j = 0; j < p->hops[c]; j++) {
                r = plain_series(p, table, lines, c, a, j);
                if (r) return r;
            }
        }
    return 0;
}
#endif
