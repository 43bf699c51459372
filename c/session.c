/*
 * The small session of document 01 (cases k, l and m), reports, refused calls, drawn rows (case g and card 7's), samples of ten
 * bits and above, candidates of every kind, SETs taken back, a seat that moves, how far one depth can move the total, and two SETs
 * in both orders, from C. Its output is compared with session.out. It compiles as C99 and as C++.
 */
#include <stddef.h>
#include <stdio.h>
#include <string.h>

#include "luphwezane.h"

#define W 4

static const uint16_t texture[W] = {10, 20, 30, 40};
static const uint8_t depths[W] = {10, 20, 30, 40};
static uint16_t sample[2][W], combined[W];
static uint8_t depth[2][W], front[2][W], marks[2][1];
static int16_t limit[2][W];

/* One journal for the sessions of which nothing is taken back: every SET finds it empty. */
static uint32_t words[1 + 6 + 15];

static luph_in in(const uint8_t *data, size_t len) {
    luph_in x;
    x.data = data;
    x.len = len;
    return x;
}

static luph_out out(uint8_t *data, size_t len) {
    luph_out x;
    x.data = data;
    x.len = len;
    return x;
}

static luph_picture picture(const uint16_t *data, size_t len) {
    luph_picture x;
    x.data = data;
    x.len = len;
    return x;
}

static luph_samples samples(uint16_t *data, size_t len) {
    luph_samples x;
    x.data = data;
    x.len = len;
    return x;
}

static luph_journal journal(uint32_t *data, size_t len) {
    luph_journal x;
    x.data = data;
    x.len = len;
    return x;
}

static luph_journal kept(void) {
    const luph_journal x = journal(words, sizeof words / sizeof words[0]);
    luph_keep(x);
    return x;
}

static luph_planes planes(void) {
    luph_planes q;
    for (int v = 0; v < 2; v++) {
        q.depth[v] = out(depth[v], W);
        q.sample[v] = samples(sample[v], W);
        q.front[v] = out(front[v], W);
        q.marks[v] = out(marks[v], 1);
        q.limit[v].data = limit[v];
        q.limit[v].len = W;
    }
    q.combined = samples(combined, W);
    return q;
}

static void print_samples(const char *name, const uint16_t *row) {
    printf("%s %d %d %d %d\n", name, row[0], row[1], row[2], row[3]);
}

static void print_open(luph_settings *s, const luph_pictures *p, const luph_planes *q) {
    const int number = luph_open(s, p, q, kept());
    printf("open: %d, total %lu\n", number, (unsigned long)s->total);
}

static void print_check(const luph_settings *s, const luph_pictures *p, const luph_planes *q) {
    luph_report r = {9, 9, 9};
    const int number = luph_check(s, p, q, &r);
    printf("check: %d, kind %d, row %lu, column %lu\n", number, r.kind, (unsigned long)r.row, (unsigned long)r.column);
}

static void print_holes(const luph_settings *s, uint32_t view) {
    uint64_t count = 99;
    const int number = luph_holes(s, view, in(marks[0], 1), in(marks[1], 1), &count);
    printf("holes of view %lu: %d, %lu\n", (unsigned long)view, number, (unsigned long)count);
}

/* One depth in one column of the left view: tried, and set. */
static void print_trial(const luph_settings *s, const luph_pictures *p, const luph_planes *q, uint32_t column, uint8_t d) {
    const luph_block b = {column, 0, 1, 1};
    int64_t change = 999;
    const int number = luph_get(s, p, q, 0, b, luph_full(in(&d, 1)), &change);
    printf("get column %lu depth %d: %d, change %ld, total %lu\n", (unsigned long)column, d, number, (long)change, (unsigned long)s->total);
}

static void print_set(luph_settings *s, const luph_pictures *p, const luph_planes *q, uint32_t column, uint8_t d) {
    const luph_block b = {column, 0, 1, 1};
    int64_t change = 999;
    const int number = luph_set(s, p, q, kept(), 0, b, luph_full(in(&d, 1)), &change);
    printf("set column %lu depth %d: %d, change %ld, total %lu\n", (unsigned long)column, d, number, (long)change, (unsigned long)s->total);
}

/* What is passed by value lies where the library reads it. */
static void layout(void) {
    printf("settings: %lu bytes, left %lu, right %lu, share %lu, tolerance %lu, widest_gap %lu, torn_distance %lu, total %lu\n",
        (unsigned long)sizeof(luph_settings), (unsigned long)offsetof(luph_settings, left), (unsigned long)offsetof(luph_settings, right),
        (unsigned long)offsetof(luph_settings, share), (unsigned long)offsetof(luph_settings, tolerance),
        (unsigned long)offsetof(luph_settings, widest_gap), (unsigned long)offsetof(luph_settings, torn_distance),
        (unsigned long)offsetof(luph_settings, total));
}

static void session(luph_settings *s, const luph_pictures *p, const luph_planes *q) {
    s->total = 77; /* ignored */
    print_open(s, p, q);
    print_trial(s, p, q, 2, 4); /* case k: 136 */
    print_trial(s, p, q, 2, 5); /* case l: 100 */
    print_set(s, p, q, 2, 4);
    print_samples("combined", combined);
    print_check(s, p, q);
    print_trial(s, p, q, 2, 5); /* case m: -36 */
    print_set(s, p, q, 2, 0);   /* and -136, back at total 0 */
    print_check(s, p, q);
}

/* A hole, and what CHECK says of a damaged plane and of a wrong total. */
static void reports(luph_settings *s, const luph_pictures *p, const luph_planes *q) {
    print_set(s, p, q, 2, 5);
    print_holes(s, 0);
    print_holes(s, 1);
    combined[1] ^= 1;
    print_check(s, p, q);
    combined[1] ^= 1;
    s->total += 1;
    print_check(s, p, q);
    s->total -= 1;
    print_check(s, p, q);
}

/* Refused calls: the number, and answers left as they were. */
static void refusals(luph_settings *s, const luph_pictures *p, const luph_planes *q) {
    luph_planes none = *q;
    luph_settings other = *s;
    luph_block whole = {0, 0, W, 1};
    int64_t change = 999;
    int number;
    print_trial(s, p, q, 4, 4); /* 5: past the last column */
    print_set(s, p, q, 4, 4);
    number = luph_get(s, p, q, 2, whole, luph_full(in(depths, W)), &change);
    printf("get of view 2: %d, change %ld\n", number, (long)change);
    number = luph_set(s, p, q, kept(), 1, whole, luph_full(in(NULL, 0)), &change);
    printf("set of no candidate: %d, change %ld\n", number, (long)change);
    none.combined = samples(NULL, 0);
    number = luph_get(s, p, &none, 0, whole, luph_full(in(depths, W)), &change);
    printf("get without a combined picture: %d, change %ld\n", number, (long)change);
    other.w = 4097;
    other.total = 77;
    number = luph_open(&other, p, q, kept());
    printf("open of 4,097 columns: %d, total %lu\n", number, (unsigned long)other.total);
    other.w = W;
    other.share = 65;
    print_check(&other, p, q);
    other.share = 64;
    other.right[255] = 1024;
    print_check(&other, p, q);
    other.right[255] = 1023;
    other.widest_gap = 65;
    print_check(&other, p, q);
    other.widest_gap = 64;
    other.torn_distance = 4;
    print_check(&other, p, q);
    print_holes(s, 7);
    print_check(s, p, q);
}

/* One of the 14 slices of pictures and planes becomes NULL; its length stays. */
static void drop(luph_pictures *p, luph_planes *q, int slice) {
    const int v = slice % 2;
    switch (slice / 2) {
    case 0: p->texture[v].data = NULL; break;
    case 1: q->depth[v].data = NULL; break;
    case 2: q->sample[v].data = NULL; break;
    case 3: q->front[v].data = NULL; break;
    case 4: q->marks[v].data = NULL; break;
    case 5: q->limit[v].data = NULL; break;
    default: if (v == 0) p->reference.data = NULL; else q->combined.data = NULL;
    }
}

/* A NULL counts as length 0: every call refuses it with 2, as a plane without its exact length. */
static void nulls(luph_settings *s, const luph_pictures *p, const luph_planes *q) {
    const luph_block whole = {0, 0, W, 1};
    int refused[6] = {0, 0, 0, 0, 0, 0};
    for (int slice = 0; slice < 14; slice++) {
        luph_pictures some = *p;
        luph_planes held = *q;
        luph_report r;
        int64_t change;
        drop(&some, &held, slice);
        refused[0] += luph_open(s, &some, &held, kept()) == LUPH_REFUSED_PLANE;
        refused[1] += luph_get(s, &some, &held, 0, whole, luph_full(in(depths, W)), &change) == LUPH_REFUSED_PLANE;
        refused[2] += luph_set(s, &some, &held, kept(), 0, whole, luph_flat(3), &change) == LUPH_REFUSED_PLANE;
        refused[3] += luph_take_back(s, &some, &held, kept(), &change) == LUPH_REFUSED_PLANE;
        refused[4] += luph_check(s, &some, &held, &r) == LUPH_REFUSED_PLANE;
        refused[5] += luph_move(s, &some, &held, kept(), s) == LUPH_REFUSED_PLANE;
    }
    printf("one of 14 slices NULL, refused: open %d, get %d, set %d, take back %d, check %d, move %d\n", refused[0], refused[1],
        refused[2], refused[3], refused[4], refused[5]);
    print_check(s, p, q);
}

/* One row of the left view. */
static void print_drawn(const luph_settings *s, const uint16_t *row, const uint8_t *d) {
    uint16_t drawn[W];
    uint8_t fronts[W], packed[1];
    const int number = luph_render(s, 0, picture(row, W), in(d, W), samples(drawn, W), out(packed, 1), out(fronts, W));
    printf("render: %d, marks %d\n", number, packed[0]);
    print_samples("samples", drawn);
    printf("fronts %d %d %d %d\n", fronts[0], fronts[1], fronts[2], fronts[3]);
}

/* Case g, a torn pair, whose far side fills the gap; and card 7's row, where position 0 shows the near edge of column 2. */
static void rows(const luph_settings *s) {
    static const uint8_t torn[W] = {0, 0, 5, 0}, edge[W] = {0, 0, 7, 0};
    print_drawn(s, texture, torn);
    print_drawn(s, texture, edge);
}

/*
 * Samples of ten bits, which the filter takes below 0 and past 1,023; and higher entries: OPEN refuses them with 21, the other
 * calls read them as 1,023, CHECK names the first held sample that is one, and SET leaves it outside the span.
 */
static void ten_bits(luph_settings *s, const luph_planes *q) {
    static const uint8_t halves[W] = {2, 2, 2, 2};
    static const uint16_t high[W] = {0, 0, 65535, 1024};
    uint16_t row[W] = {0, 0, 1023, 1023};
    luph_pictures p;
    p.texture[0] = p.texture[1] = p.reference = picture(row, W);
    memset(depth, 0, sizeof depth);
    print_drawn(s, row, halves);
    print_open(s, &p, q);
    print_trial(s, &p, q, 1, 2);
    print_set(s, &p, q, 1, 2);
    print_samples("combined", combined);
    memcpy(row, high, sizeof row);
    print_drawn(s, row, halves);
    print_open(s, &p, q);
    print_check(s, &p, q);
    print_trial(s, &p, q, 1, 0);
    sample[1][2] = combined[3] = 2000;
    print_check(s, &p, q);
    print_trial(s, &p, q, 1, 0);
    print_set(s, &p, q, 1, 0);
    print_samples("combined", combined);
}

/* A picture of several rows, for candidates, and the block of its three middle columns. */
enum { COLUMNS = 5, ROWS = 3, AREA = COLUMNS * ROWS };
static const luph_block middle = {1, 0, 3, 3};
static uint8_t area_depth[2][AREA];

/* GET and SET of a candidate for a block of the left view, and where SET accepts it the depths of all rows. */
static void print_candidate(const char *name, luph_settings *s, const luph_pictures *p, const luph_planes *q, luph_block b,
    luph_candidate candidate) {
    int64_t tried = 999, change = 999;
    const int get = luph_get(s, p, q, 0, b, candidate, &tried), set = luph_set(s, p, q, kept(), 0, b, candidate, &change);
    printf("%s: get %d, change %ld; set %d, change %ld, total %lu", name, get, (long)tried, set, (long)change, (unsigned long)s->total);
    for (int i = 0; set == LUPH_ACCEPTED && i < AREA; i++) printf(i == 0 ? "; %d" : i % COLUMNS == 0 ? ", %d" : " %d", area_depth[0][i]);
    printf("\n");
}

/* The same candidate with other bytes: a kind that has none must not look at them. */
static luph_candidate with_bytes(luph_candidate candidate, luph_in bytes) {
    candidate.bytes = bytes;
    return candidate;
}

static luph_candidate of_kind(luph_candidate candidate, uint32_t kind) {
    candidate.kind = kind;
    return candidate;
}

/* Candidates of every kind, and the same once more as full blocks. */
static void accepted(luph_settings *s, const luph_pictures *p, const luph_planes *q) {
    static const uint8_t lower[9] = {1, 1, 1, 7, 1, 1, 7, 7, 1}, odd[9] = {9, 4, 9, 4, 9, 4, 9, 4, 9};
    static const uint8_t bits[2] = {0x55, 0x01}, spare[2] = {0x55, 0xFF};
    const luph_in nowhere = in((const uint8_t *)1, (size_t)-1);
    const luph_candidate line = luph_line(0, 0, 2, 2, 1, 7);
    const luph_block row = {0, 2, 5, 1};
    print_candidate("one value", s, p, q, middle, luph_flat(6));
    print_candidate("a line", s, p, q, middle, line);
    print_candidate("the same as a full block", s, p, q, middle, luph_full(in(lower, 9)));
    print_candidate("the line from its end to its start", s, p, q, middle, luph_line(2, 2, 0, 0, 1, 7));
    print_candidate("an upright line", s, p, q, middle, luph_line(1, 0, 1, 2, 1, 7));
    print_candidate("a mask", s, p, q, middle, luph_mask(in(bits, 2), 4, 9));
    print_candidate("the same with spare bits", s, p, q, middle, luph_mask(in(spare, 2), 4, 9));
    print_candidate("the same as a full block", s, p, q, middle, luph_full(in(odd, 9)));
    print_candidate("a mask of one row", s, p, q, row, luph_mask(in(bits, 1), 0, 255));
    print_candidate("one value with bytes nowhere", s, p, q, middle, with_bytes(luph_flat(2), nowhere));
    print_candidate("a line with bytes nowhere", s, p, q, middle, with_bytes(line, nowhere));
}

/* 7, 14 and 15, each after 5 and 6. */
static void refused(luph_settings *s, const luph_pictures *p, const luph_planes *q) {
    static const uint8_t bytes[9] = {255, 255, 255, 255, 255, 255, 255, 255, 255};
    const luph_candidate line = luph_line(1, 1, 2, 2, 1, 7), mask = luph_mask(in(bytes, 1), 4, 9);
    const luph_block row = {0, 1, 5, 1}, column = {4, 0, 1, 3}, past = {3, 0, 3, 3};
    int64_t change = 999;
    print_candidate("a point inside", s, p, q, middle, line);
    print_candidate("a point outside", s, p, q, middle, luph_line(0, 0, 3, 2, 1, 7));
    print_candidate("a point far outside", s, p, q, middle, luph_line(0, 4294967295u, 2, 2, 1, 7));
    print_candidate("a side in common", s, p, q, middle, luph_line(0, 0, 2, 0, 1, 7));
    print_candidate("one point twice", s, p, q, middle, luph_line(2, 2, 2, 2, 1, 7));
    print_candidate("a line in one row", s, p, q, row, luph_line(0, 0, 4, 0, 1, 7));
    print_candidate("a line in one column", s, p, q, column, luph_line(0, 0, 0, 2, 1, 7));
    print_candidate("a mask of a byte less", s, p, q, middle, mask);
    print_candidate("a mask of a byte more", s, p, q, middle, luph_mask(in(bytes, 3), 4, 9));
    print_candidate("a mask of NULL", s, p, q, middle, luph_mask(in(NULL, 2), 4, 9));
    print_candidate("a full block of NULL", s, p, q, middle, luph_full(in(NULL, 9)));
    print_candidate("a full block with a depth less", s, p, q, middle, luph_full(in(bytes, 8)));
    print_candidate("kind 4", s, p, q, middle, of_kind(luph_full(in(bytes, 9)), 4));
    print_candidate("kind 4,294,967,295", s, p, q, middle, of_kind(luph_full(in(bytes, 9)), 4294967295u));
    print_candidate("kind 4 with bytes nowhere", s, p, q, middle, of_kind(with_bytes(line, in((const uint8_t *)1, 9)), 4));
    print_candidate("a wrong line past an edge", s, p, q, past, line);
    print_candidate("a wrong mask past an edge", s, p, q, past, mask);
    print_candidate("kind 4 past an edge", s, p, q, past, of_kind(line, 4));
    printf("of view 2: a line %d", luph_get(s, p, q, 2, past, line, &change));
    printf(", a mask %d", luph_get(s, p, q, 2, past, mask, &change));
    printf(", kind 4 %d", luph_get(s, p, q, 2, past, of_kind(mask, 4), &change));
    printf(", change %ld\n", (long)change);
}

static void candidates(luph_settings s) {
    static uint16_t picture_of_area[AREA], area_sample[2][AREA], area_combined[AREA];
    static uint8_t area_front[2][AREA], area_marks[2][ROWS];
    static int16_t area_limit[2][AREA];
    luph_pictures p;
    luph_planes q;
    for (int i = 0; i < AREA; i++) picture_of_area[i] = (uint16_t)(70 * i);
    p.texture[0] = p.texture[1] = p.reference = picture(picture_of_area, AREA);
    for (int v = 0; v < 2; v++) {
        q.depth[v] = out(area_depth[v], AREA);
        q.sample[v] = samples(area_sample[v], AREA);
        q.front[v] = out(area_front[v], AREA);
        q.marks[v] = out(area_marks[v], ROWS);
        q.limit[v].data = area_limit[v];
        q.limit[v].len = AREA;
    }
    q.combined = samples(area_combined, AREA);
    s.w = COLUMNS;
    s.h = ROWS;
    print_open(&s, &p, &q);
    accepted(&s, &p, &q);
    refused(&s, &p, &q);
    print_check(&s, &p, &q);
}

/* The words of a journal up to its last. */
static void print_words(luph_journal j) {
    printf("words");
    for (size_t i = 0; i < j.len; i++) printf(" %lu", (unsigned long)j.data[i]);
    printf("\n");
}

/* SET of one value in a block of a view of the row, and TAKE BACK, with a journal. */
static void print_saved(luph_settings *s, const luph_pictures *p, const luph_planes *q, luph_journal j, uint32_t view, luph_block b,
    uint8_t d) {
    int64_t change = 999;
    const int number = luph_set(s, p, q, j, view, b, luph_flat(d), &change);
    printf("set depth %d: %d, change %ld, total %lu\n", d, number, (long)change, (unsigned long)s->total);
}

static void print_back(luph_settings *s, const luph_pictures *p, const luph_planes *q, luph_journal j) {
    int64_t change = 999;
    const int number = luph_take_back(s, p, q, j, &change);
    printf("take back: %d, change %ld, total %lu; left %d %d %d %d, right %d %d %d %d\n", number, (long)change, (unsigned long)s->total,
        depth[0][0], depth[0][1], depth[0][2], depth[0][3], depth[1][0], depth[1][1], depth[1][2], depth[1][3]);
}

/* Two SETs with a journal that has room for no third, taken back; and one that is kept. */
static void taken_back(luph_settings *s, const luph_pictures *p, const luph_planes *q, luph_journal j) {
    const luph_block two = {1, 0, 2, 1}, last = {3, 0, 1, 1};
    for (size_t i = 0; i < j.len; i++) j.data[i] = 7777;
    memset(depth, 0, sizeof depth);
    printf("open: %d\n", luph_open(s, p, q, j));
    print_words(j);
    print_back(s, p, q, j); /* 12 */
    print_saved(s, p, q, j, 0, two, 5);
    print_saved(s, p, q, j, 1, last, 3);
    print_words(j);
    print_saved(s, p, q, j, 1, last, 2); /* 11 */
    print_back(s, p, q, j);
    print_back(s, p, q, j);
    print_back(s, p, q, j); /* 12 */
    print_words(j);
    print_saved(s, p, q, j, 0, two, 4);
    luph_keep(j);
    print_back(s, p, q, j); /* 12: it is kept */
    print_check(s, p, q);
}

/* 13: journals of no words, and a record that cannot be right. */
static void wrong_journals(luph_settings *s, const luph_pictures *p, const luph_planes *q, luph_journal j) {
    static const struct {
        const char *name;
        size_t word;
        uint32_t value;
    } damages[] = {{"an index that stands still", 1, 1}, {"an index past the end", 0, 4294967295u}, {"view 2", 2, 2},
        {"column 3", 3, 3}, {"row 1", 4, 1}, {"width 0", 5, 0}, {"height 2", 6, 2}, {"depth 256", 8, 256}, {"no damage", 8, 255}};
    const luph_block two = {1, 0, 2, 1}, last = {3, 0, 1, 1};
    const luph_journal none = journal(j.data, 0), null = journal(NULL, j.len);
    int64_t change = 999;
    printf("no words: open %d, set %d, take back %d\n", luph_open(s, p, q, none), luph_set(s, p, q, none, 0, two, luph_flat(1), &change),
        luph_take_back(s, p, q, none, &change));
    printf("NULL: open %d, set %d, take back %d\n", luph_open(s, p, q, null), luph_set(s, p, q, null, 0, two, luph_flat(1), &change),
        luph_take_back(s, p, q, null, &change));
    luph_keep(null);
    printf("change %ld\n", (long)change);
    for (size_t i = 0; i < sizeof damages / sizeof damages[0]; i++) {
        int set, back;
        luph_keep(j);
        if (luph_set(s, p, q, j, 0, two, luph_flat(9), &change) != LUPH_ACCEPTED) printf("not set\n");
        j.data[damages[i].word] = damages[i].value;
        set = luph_set(s, p, q, j, 1, last, luph_flat(1), &change);
        back = luph_take_back(s, p, q, j, &change);
        printf("%s: set %d, take back %d\n", damages[i].name, set, back);
    }
    print_check(s, p, q);
}

static void journals(luph_settings *s, const luph_pictures *p, const luph_planes *q) {
    static uint32_t room[1 + 8 + 7 + 1];
    const luph_journal j = journal(room, sizeof room / sizeof room[0]);
    taken_back(s, p, q, j);
    wrong_journals(s, p, q, j);
}

/* MOVE, and what the session and word 0 of its journal are then. */
static void print_move(const char *name, luph_settings *s, const luph_pictures *p, const luph_planes *q, luph_journal j,
    const luph_settings *to) {
    const int number = luph_move(s, p, q, j, to);
    printf("%s: %d; %lu by %lu, depth 5 is shifted by %d and %d, share %d, tolerance %d, gap %d, distance %d, total %lu; word 0 is %lu\n",
        name, number, (unsigned long)s->w, (unsigned long)s->h, s->left[5], s->right[5], s->share, s->tolerance, s->widest_gap,
        s->torn_distance, (unsigned long)s->total, (unsigned long)j.data[0]);
    print_samples("combined", combined);
}

/* MOVEs that are refused: the session stays. */
static void refused_moves(luph_settings *s, const luph_pictures *p, const luph_planes *q, luph_journal j, const luph_settings *to) {
    static const uint16_t high[W] = {14, 25, 36, 1024};
    luph_settings wrong = *to, wide = *s;
    luph_pictures other = *p;
    wide.w = 4097;
    printf("move of 4,097 columns: %d", luph_move(&wide, p, q, j, to));
    other.reference = picture(high, W - 1);
    printf(", a short reference %d", luph_move(s, &other, q, j, to));
    other.reference = picture(high, W);
    printf(", a high sample %d", luph_move(s, &other, q, j, to));
    printf(", no words as well %d", luph_move(s, &other, q, journal(NULL, j.len), to));
    wrong.widest_gap = 3;
    printf(", a gap of 3 as well %d", luph_move(s, &other, q, journal(NULL, j.len), &wrong));
    wrong.widest_gap = 65;
    printf(", a gap of 65 %d", luph_move(s, p, q, j, &wrong));
    wrong.widest_gap = 64;
    wrong.torn_distance = 4;
    printf(", a distance of 4 %d", luph_move(s, p, q, j, &wrong));
    wrong.share = 65;
    printf(", a share of 65 as well %d", luph_move(s, p, q, j, &wrong));
    wrong.left[0] = 1024;
    printf(", an entry of 1,024 as well %d\n", luph_move(s, p, q, j, &wrong));
    print_check(s, p, q);
}

/* The seat goes half a sample to the right of the left camera, where another picture is seen, and back. */
static void seats(luph_settings *s, const luph_pictures *p, const luph_planes *q) {
    static const uint16_t seen[W] = {14, 25, 36, 40};
    static uint32_t room[1 + 7];
    const luph_journal j = journal(room, sizeof room / sizeof room[0]);
    const luph_block b = {2, 0, 1, 1};
    luph_settings to, middle;
    luph_pictures there = *p;
    memset(depth, 0, sizeof depth);
    printf("open: %d\n", luph_open(s, p, q, j));
    middle = to = *s;
    there.reference = picture(seen, W);
    print_saved(s, p, q, j, 0, b, 5);
    to.w = to.h = 0; /* not looked at */
    to.total = 77;   /* nor this */
    for (int d = 0; d < 256; d++) {
        to.left[d] = 2;
        to.right[d] = 0;
    }
    refused_moves(s, p, q, j, &to);
    print_back(s, p, q, j); /* what was set before can still be taken back */
    print_saved(s, p, q, j, 0, b, 5);
    print_move("move", s, &there, q, j, &to);
    print_back(s, &there, q, j); /* 12: what was set before a MOVE stays */
    print_check(s, &there, q);
    print_holes(s, 0);
    to.torn_distance = 2; /* the last column is shown two quarters past its place: no hole */
    to.share = 32;
    to.tolerance = 4;
    to.widest_gap = 9;
    print_move("other numbers", s, &there, q, j, &to);
    print_holes(s, 0);
    print_saved(s, &there, q, j, 0, b, 4);
    print_back(s, &there, q, j);
    print_move("back", s, p, q, j, &middle);
    s->widest_gap = 9; /* case g, no longer torn */
    print_move("to its own settings", s, p, q, j, s);
    print_holes(s, 0);
    print_check(s, p, q);
}

/* L of a depth d in column x of the row, from what is held. */
static int length(const luph_settings *s, const luph_planes *q, uint32_t view, int x, uint8_t d) {
    const uint16_t *table = view == 0 ? s->left : s->right;
    const uint8_t *row = q->depth[view].data;
    const int w = (int)s->w, c = view == 0 ? x : w - 1 - x;
    const int before = view == 0 ? x - 1 : x + 1, next = view == 0 ? x + 1 : x - 1;
    int least = 4 * c - table[row[x]];
    if (4 * c - table[d] < least) least = 4 * c - table[d];
    if (c > 0 && 4 * (c - 1) - table[row[before]] < least) least = 4 * (c - 1) - table[row[before]];
    return (c < w - 1 ? q->limit[view].data[next] : 4 * w) - (least > 1 ? least - 1 : 0);
}

/* How far that depth can move the total. */
static int64_t bound(int l) {
    return l > 0 ? 1046529 * (int64_t)((l + 3) / 4) : 0;
}

static void print_bound(const luph_settings *s, const luph_pictures *p, const luph_planes *q, uint32_t view, int x, uint8_t d) {
    const luph_block b = {(uint32_t)x, 0, 1, 1};
    const int l = length(s, q, view, x, d);
    int64_t change = 999;
    const int number = luph_get(s, p, q, view, b, luph_flat(d), &change);
    printf("get view %lu column %d depth %d: %d, L %d, at most %ld, change %ld\n", (unsigned long)view, x, d, number, l, (long)bound(l),
        (long)change);
}

/* Every depth in every column of both views: how many GETs are within the bound, and how many reach it. */
static void print_within(const luph_settings *s, const luph_pictures *p, const luph_planes *q) {
    int gets = 0, within = 0, reach = 0;
    for (int i = 0; i < 2 * W * 256; i++) {
        const uint32_t view = (uint32_t)(i / (W * 256));
        const luph_block b = {(uint32_t)(i / 256 % W), 0, 1, 1};
        const uint8_t d = (uint8_t)(i % 256);
        const int64_t most = bound(length(s, q, view, (int)b.column, d));
        int64_t change;
        if (luph_get(s, p, q, view, b, luph_flat(d), &change) != LUPH_ACCEPTED) continue;
        gets += 1;
        within += -most <= change && change <= most;
        reach += most > 0 && (change == most || change == -most);
    }
    printf("of %d gets %d are within the bound, %d reach it\n", gets, within, reach);
}

/*
 * A row of black and white in the left view, and the same from right to left in the right view. Depth 7 in column 2 of the left
 * view, and in column 1 of the right view, reaches the bound. In the left view column 2 is then hidden behind a nearer column 3: L is
 * below 0, and nothing changes.
 */
static void bounds(luph_settings *s, const luph_planes *q) {
    static const uint16_t white_first[W] = {1023, 1023, 0, 0}, white_last[W] = {0, 0, 1023, 1023}, black[W] = {0, 0, 0, 0};
    static const uint8_t near_last[W] = {0, 0, 3, 7}, near_first[W] = {7, 3, 0, 0}, hidden[W] = {0, 0, 0, 12};
    luph_pictures p;
    memset(depth, 0, sizeof depth);
    memcpy(depth[0], near_last, W);
    s->share = 0;
    s->widest_gap = 8;
    p.texture[0] = p.reference = picture(white_first, W);
    p.texture[1] = picture(black, W);
    print_open(s, &p, q);
    print_bound(s, &p, q, 0, 2, 7);
    print_bound(s, &p, q, 0, 3, 11);
    print_within(s, &p, q);
    print_set(s, &p, q, 2, 7);
    print_bound(s, &p, q, 0, 2, 3);
    memcpy(depth[0], hidden, W);
    print_open(s, &p, q);
    print_bound(s, &p, q, 0, 2, 5);
    memset(depth, 0, sizeof depth);
    memcpy(depth[1], near_first, W);
    s->share = 64;
    p.texture[0] = picture(black, W);
    p.texture[1] = p.reference = picture(white_last, W);
    print_open(s, &p, q);
    print_bound(s, &p, q, 1, 1, 7);
    print_bound(s, &p, q, 1, 0, 11);
    print_within(s, &p, q);
}

/* A copy of every plane of the row. */
typedef struct row_copy {
    uint16_t sample[2][W], combined[W];
    int16_t limit[2][W];
    uint8_t depth[2][W], front[2][W], marks[2][1];
} row_copy;

static void copy_row(row_copy *x) {
    memset(x, 0, sizeof *x); /* the bytes between its planes too */
    memcpy(x->sample, sample, sizeof sample);
    memcpy(x->combined, combined, sizeof combined);
    memcpy(x->limit, limit, sizeof limit);
    memcpy(x->depth, depth, sizeof depth);
    memcpy(x->front, front, sizeof front);
    memcpy(x->marks, marks, sizeof marks);
}

static void print_equal(const row_copy *x, const row_copy *y) {
    printf("all planes are %s\n", memcmp(x, y, sizeof *x) == 0 ? "equal" : "not equal");
}

/* From depths of 0, depth 4 in one column of a view and then in another: the answers and their sum, and a copy of all planes. */
static void print_order(luph_settings *s, const luph_pictures *p, const luph_planes *q, uint32_t view, uint32_t column, uint32_t next,
    row_copy *end) {
    const luph_block b[2] = {{column, 0, 1, 1}, {next, 0, 1, 1}};
    const luph_journal j = kept();
    int64_t change[2] = {999, 999};
    int number[2];
    memset(depth, 0, sizeof depth);
    printf("open: %d\n", luph_open(s, p, q, j));
    for (int i = 0; i < 2; i++) number[i] = luph_set(s, p, q, j, view, b[i], luph_flat(4), &change[i]);
    printf("set view %lu column %lu: %d, then column %lu: %d, change %ld + %ld = %ld, total %lu\n", (unsigned long)view,
        (unsigned long)column, number[0], (unsigned long)next, number[1], (long)change[0], (long)change[1],
        (long)(change[0] + change[1]), (unsigned long)s->total);
    copy_row(end);
}

/* Two neighbouring columns of each view, set in both orders; then the depths that they have. */
static void orders(luph_settings *s, const luph_pictures *p, const luph_planes *q) {
    static const uint8_t fours[2] = {4, 4};
    for (uint32_t view = 0; view < 2; view++) {
        const luph_block b = {view == 0 ? 2u : 0u, 0, 2, 1};
        const uint32_t column = view == 0 ? 2 : 1, next = view == 0 ? 3 : 0;
        row_copy forth, back;
        int64_t change = 999;
        int number;
        s->share = view == 0 ? 0 : 64;
        print_order(s, p, q, view, column, next, &forth);
        print_order(s, p, q, view, next, column, &back);
        print_equal(&forth, &back);
        number = luph_set(s, p, q, kept(), view, b, luph_full(in(fours, 2)), &change);
        printf("set the depths of both again: %d, change %ld, total %lu\n", number, (long)change, (unsigned long)s->total);
        copy_row(&back);
        print_equal(&forth, &back);
    }
    print_check(s, p, q);
}

int main(void) {
    luph_settings s;
    luph_pictures p;
    luph_planes q = planes();
    memset(&s, 0, sizeof s);
    s.w = W;
    s.h = 1;
    s.tolerance = 255;
    s.widest_gap = 8;
    s.torn_distance = 1;
    for (int d = 0; d < 256; d++) s.left[d] = s.right[d] = (uint16_t)d;
    p.texture[0] = p.texture[1] = p.reference = picture(texture, W);
    layout();
    session(&s, &p, &q);
    reports(&s, &p, &q);
    refusals(&s, &p, &q);
    nulls(&s, &p, &q);
    rows(&s);
    ten_bits(&s, &q);
    candidates(s);
    journals(&s, &p, &q);
    seats(&s, &p, &q);
    bounds(&s, &q);
    orders(&s, &p, &q);
    return 0;
}
