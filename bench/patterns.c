// The patterns: grids, racks, random, band, arrow, chain and star, each at several sizes, by a fixed seed.
#include "patterns.h"
#include <stdio.h>
#include <stdlib.h>
#include <string.h>

static uint64_t seed = 88172645463325252u;

static uint32_t below(uint32_t limit) {
    seed ^= seed << 13;
    seed ^= seed >> 7;
    seed ^= seed << 17;
    return (uint32_t)((seed >> 11) % limit);
}

static pattern *at;

static void begin(const char *family, uint32_t order) {
    at->family = family;
    at->order = order;
    at->pairs = 0;
    at->pair = malloc(sizeof(uint32_t[2]) * MOST_PAIRS);
    if (!at->pair) abort();
}

static void add(uint32_t i, uint32_t j) {
    if (i == j || at->pairs == MOST_PAIRS) return;
    int turned = below(2);
    at->pair[at->pairs][0] = turned ? j : i;
    at->pair[at->pairs][1] = turned ? i : j;
    at->pairs++;
}

static int by_vertices(const void *a, const void *b) {
    const uint32_t *p = a, *q = b;
    uint32_t pl = p[0] < p[1] ? p[0] : p[1], ph = p[0] ^ p[1] ^ pl;
    uint32_t ql = q[0] < q[1] ? q[0] : q[1], qh = q[0] ^ q[1] ^ ql;
    if (pl != ql) return pl < ql ? -1 : 1;
    if (ph != qh) return ph < qh ? -1 : 1;
    return 0;
}

// Removes pairs that stand twice, and shuffles the rest.
static void end(void) {
    qsort(at->pair, at->pairs, sizeof(uint32_t[2]), by_vertices);
    size_t kept = 0;
    for (size_t k = 0; k < at->pairs; k++)
        if (kept == 0 || by_vertices(at->pair[kept - 1], at->pair[k]) != 0)
            memmove(at->pair[kept++], at->pair[k], sizeof(uint32_t[2]));
    at->pairs = kept;
    for (size_t k = kept; k > 1; k--) {
        size_t other = below((uint32_t)k);
        uint32_t held[2];
        memcpy(held, at->pair[k - 1], sizeof held);
        memcpy(at->pair[k - 1], at->pair[other], sizeof held);
        memcpy(at->pair[other], held, sizeof held);
    }
    at++;
}

// Five neighbours a vertex, or nine.
static void grid(uint32_t wide, uint32_t high, int diagonal) {
    begin(diagonal ? "grid 9" : "grid 5", wide * high);
    for (uint32_t y = 0; y < high; y++)
        for (uint32_t x = 0; x < wide; x++) {
            uint32_t v = y * wide + x + 1;
            if (x + 1 < wide) add(v, v + 1);
            if (y + 1 < high) add(v, v + wide);
            if (diagonal && x + 1 < wide && y + 1 < high) {
                add(v, v + wide + 1);
                add(v + 1, v + wide);
            }
        }
    end();
}

// Aisles of frames: uprights and beams, two faces a bay, braced, joints numbered level by level.
static void rack(uint32_t aisles, uint32_t bays, uint32_t levels) {
    begin("rack", aisles * 2 * (bays + 1) * levels);
    uint32_t face = (bays + 1) * levels;
    for (uint32_t a = 0; a < aisles; a++)
        for (uint32_t f = 0; f < 2; f++)
            for (uint32_t b = 0; b <= bays; b++)
                for (uint32_t l = 0; l < levels; l++) {
                    uint32_t v = (a * 2 + f) * face + b * levels + l + 1;
                    if (l + 1 < levels) add(v, v + 1);
                    if (b < bays) add(v, v + levels);
                    if (f == 0) add(v, v + face);
                    if (f == 0 && l + 1 < levels) add(v, v + face + 1);
                    if (b < bays && l + 1 < levels && (b + l) % 2 == 0) add(v, v + levels + 1);
                    if (f == 1 && a + 1 < aisles && l + 1 == levels) add(v, v + face);
                }
    end();
}

static void at_random(uint32_t order, size_t pairs) {
    begin("random", order);
    for (size_t k = 0; k < pairs; k++) add(below(order) + 1, below(order) + 1);
    end();
}

static void band(uint32_t order, uint32_t wide) {
    begin("band", order);
    for (uint32_t v = 1; v <= order; v++)
        for (uint32_t w = v + 1; w <= order && w <= v + wide; w++) add(v, w);
    end();
}

static void arrow(uint32_t order, uint32_t heads) {
    begin("arrow", order);
    for (uint32_t v = 1; v <= order; v++)
        for (uint32_t h = order - heads + 1; h <= order; h++)
            if (v < h) add(v, h);
    end();
}

static void chain(uint32_t order) {
    begin("chain", order);
    for (uint32_t v = 1; v < order; v++) add(v, v + 1);
    end();
}

// The middle in front: its elimination joins all others.
static void star(uint32_t order) {
    begin("star", order);
    for (uint32_t v = 2; v <= order; v++) add(1, v);
    end();
}

size_t all_patterns(pattern *list, size_t room) {
    if (room < 24) abort();
    at = list;
    grid(32, 32, 0);
    grid(128, 128, 0);
    grid(64, 64, 1);
    grid(128, 128, 1);
    rack(4, 15, 4);
    rack(8, 31, 8);
    rack(16, 63, 8);
    at_random(1024, 4096);
    at_random(4096, 32768);
    at_random(16384, 65536);
    at_random(16384, MOST_PAIRS);
    band(2048, 8);
    band(16384, 8);
    band(16384, 16);
    arrow(2048, 4);
    arrow(16384, 1);
    arrow(16384, 16);
    chain(2048);
    chain(16384);
    star(2048);
    star(16384);
    return (size_t)(at - list);
}
