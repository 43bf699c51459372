/*
 * Makes the same GET many times through the header, so that a profiler can tell what a GET costs whatever its block. docs/SPEED.md says
 * how, and what was counted.
 *
 *     cost [full | value | line | mask | refused] [SIDE]
 *
 * SIDE is 1 where it is not given. `refused` makes GETs that are refused with 7, which end before the trial; a line at 1 x 1 is
 * refused with 14.
 */
#include <stdio.h>
#include <stdlib.h>
#include <string.h>

#include "luphwezane.h"

enum { W = 64, H = 32, AREA = W * H, MARKS = (W + 7) / 8 * H, GETS = 10000, WIDEST = 16 };

static luph_settings settings;
static uint16_t texture[2][AREA], reference[AREA], sample[2][AREA], combined[AREA];
static uint8_t depth[2][AREA], front[2][AREA], marks[2][MARKS];
static int16_t limit[2][AREA];

/* A GET by a caller whose compiler knows nothing of what is passed: it is called through a pointer that may have changed. */
static int get(const luph_settings *s, const luph_pictures *p, const luph_planes *q, uint32_t view, luph_block b,
    luph_candidate candidate, int64_t *change) {
    return luph_get(s, p, q, view, b, candidate, change);
}

static int (*volatile caller)(const luph_settings *, const luph_pictures *, const luph_planes *, uint32_t, luph_block, luph_candidate,
    int64_t *) = get;

/* A candidate of the named kind for a block of side x side, and the number that GET answers; -1 where there is no such kind. */
static int named(const char *kind, uint32_t side, luph_candidate *candidate) {
    static uint8_t depths[WIDEST * WIDEST + 1], bits[WIDEST * WIDEST / 8 + 1];
    const size_t area = (size_t)side * side;
    memset(depths, 9, sizeof depths);
    memset(bits, 0x35, sizeof bits);
    if (strcmp(kind, "full") == 0) *candidate = luph_full((luph_in){depths, area});
    else if (strcmp(kind, "value") == 0) *candidate = luph_flat(9);
    else if (strcmp(kind, "line") == 0) *candidate = luph_line(0, 0, side - 1, side - 1, 9, 5);
    else if (strcmp(kind, "mask") == 0) *candidate = luph_mask((luph_in){bits, (area + 7) / 8}, 9, 5);
    else if (strcmp(kind, "refused") == 0) *candidate = luph_full((luph_in){depths, area + 1});
    else return -1;
    if (strcmp(kind, "refused") == 0) return LUPH_REFUSED_CANDIDATE;
    return candidate->kind == LUPH_LINE && side == 1 ? LUPH_REFUSED_LINE : LUPH_ACCEPTED;
}

int main(int count, char **words) {
    const char *kind = count > 1 ? words[1] : "full";
    const uint32_t side = count > 2 ? (uint32_t)strtoul(words[2], NULL, 10) : 1;
    luph_candidate candidate;
    const int expected = side < 1 || side > WIDEST ? -1 : named(kind, side, &candidate);
    if (expected < 0) {
        fprintf(stderr, "usage: cost [full | value | line | mask | refused] [SIDE from 1 to %d]\n", WIDEST);
        return 1;
    }
    luph_pictures p;
    luph_planes q;
    settings.w = W;
    settings.h = H;
    settings.share = 32;
    settings.tolerance = 4;
    settings.widest_gap = 8;
    settings.torn_distance = 1;
    for (int i = 0; i < 256; i++) settings.left[i] = settings.right[i] = (uint16_t)(i / 4);
    for (int v = 0; v < 2; v++) {
        for (int i = 0; i < AREA; i++) {
            texture[v][i] = (uint16_t)((7 * i + v) % 1024);
            depth[v][i] = (uint8_t)(i / 8 % 3 * 8);
        }
        p.texture[v] = (luph_picture){texture[v], AREA};
        q.depth[v] = (luph_out){depth[v], AREA};
        q.sample[v] = (luph_samples){sample[v], AREA};
        q.front[v] = (luph_out){front[v], AREA};
        q.marks[v] = (luph_out){marks[v], MARKS};
        q.limit[v] = (luph_limits){limit[v], AREA};
    }
    p.reference = (luph_picture){reference, AREA};
    q.combined = (luph_samples){combined, AREA};
    uint32_t word;
    if (luph_open(&settings, &p, &q, (luph_journal){&word, 1}) != LUPH_ACCEPTED) return 1;

    int64_t change = 0;
    for (int i = 0; i < GETS; i++) {
        const luph_block block = {16 + (uint32_t)i % 16, 10, side, side};
        if (caller(&settings, &p, &q, (uint32_t)i % 2, block, candidate, &change) != expected) return 1;
    }
    printf("%d GETs (%s) at %u x %u, each answered with %d\n", GETS, kind, (unsigned)side, (unsigned)side, expected);
    return 0;
}
