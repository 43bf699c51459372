/*
 * What the C text of README.md uses, and what it must leave. The text takes the place of the line READMETEXT.
 *
 * The left view's depths are 60 but for a block of 8 x 8 with a line in it. The pictures to be seen, from the middle and from
 * nearer to the right camera, are drawn from these depths. So a session that begins without the block has a total of 0 when its
 * line is set, and still after the seat has moved.
 */
#include "luphwezane.h"

#include <stdio.h>
#include <string.h>

enum { W = 32, H = 24, AREA = W * H, MARKS = W / 8 * H };

static uint16_t texture[2][AREA], reference[AREA], elsewhere[AREA], sample[2][AREA], combined[AREA];
static uint8_t depth[2][AREA], front[2][AREA], marks[2][MARKS];
static int16_t limit[2][AREA];
static uint32_t words[4096];
static const luph_picture seen_there = {elsewhere, AREA};

static int wrong = 0;

#define EXPECT(what)                                              \
    if (!(what)) {                                                \
        printf("line %d, worse %d: %s\n", __LINE__, worse, #what); \
        wrong = 1;                                                \
    }

/* A texture with some detail, and tables for a seat in the middle. */
static void make(luph_settings *settings) {
    const luph_settings middle = {W, H, {0}, {0}, 32, 255, 8, 1, 0};
    *settings = middle;
    for (int d = 0; d < 256; d++) settings->left[d] = settings->right[d] = (uint16_t)(d / 4);
    for (int i = 0; i < AREA; i++) texture[0][i] = texture[1][i] = (uint16_t)(i * i * 37 % 1021);
}

/* The depths, with the line or without. It parts each row of the block between columns 3 and 5. */
static void make_depths(int with_line) {
    memset(depth, 60, sizeof depth);
    for (int y = 0; with_line && y < 8; y++)
        for (int x = 0; x < 8; x++) depth[0][(8 + y) * W + 16 + x] = 2 * y > 7 * (x - 3) ? 90 : 40;
}

/* Draws the picture that is seen with these settings where the line is set. */
static void see(luph_settings settings, const luph_pictures *pictures, const luph_planes *planes, uint16_t *seen, int worse) {
    const luph_journal journal = {words, 1};
    make_depths(1);
    EXPECT(luph_open(&settings, pictures, planes, journal) == LUPH_ACCEPTED);
    memcpy(seen, combined, sizeof combined);
}

static void readme(int worse) {
    luph_settings settings;
    make(&settings);
    luph_pictures pictures = {{{texture[0], AREA}, {texture[1], AREA}}, {reference, AREA}};
    const luph_planes planes = {{{depth[0], AREA}, {depth[1], AREA}}, {{sample[0], AREA}, {sample[1], AREA}}, {{front[0], AREA}, {front[1], AREA}},
        {{marks[0], MARKS}, {marks[1], MARKS}}, {combined, AREA}, {{limit[0], AREA}, {limit[1], AREA}}};

    luph_settings nearer = settings;
    for (int d = 0; d < 256; d++) {
        nearer.left[d] = (uint16_t)(d / 4 + d / 4 / 2);
        nearer.right[d] = (uint16_t)(d / 4 - d / 4 / 2);
    }
    nearer.share = 48;
    see(nearer, &pictures, &planes, elsewhere, worse);
    see(settings, &pictures, &planes, reference, worse);
    make_depths(0);
    luph_settings opened = settings;
    const luph_journal other = {words, 1};
    EXPECT(luph_open(&opened, &pictures, &planes, other) == LUPH_ACCEPTED && opened.total > 0);

    READMETEXT

    luph_report report = {-1, 0, 0};
    EXPECT(number == LUPH_ACCEPTED && luph_check(&settings, &pictures, &planes, &report) == LUPH_ACCEPTED && report.kind == 0);
    EXPECT(change == (worse ? (int64_t)opened.total : -(int64_t)opened.total));
    EXPECT((settings.total == 0) == !worse);
    EXPECT(memcmp(settings.left, nearer.left, sizeof nearer.left) == 0 && memcmp(settings.right, nearer.right, sizeof nearer.right) == 0);
    EXPECT(settings.share == 48 && pictures.reference.data == elsewhere && words[0] == 0);
    uint8_t found[2][AREA];
    memcpy(found, depth, sizeof depth);
    make_depths(!worse);
    EXPECT(memcmp(found, depth, sizeof depth) == 0);
}

int main(void) {
    readme(0);
    readme(1);
    return wrong;
}
