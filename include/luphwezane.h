/*
 * Luphwezane: held views and distortion change for two cameras with depth.
 *
 * Include this header and link libluphwezane.a (x86-64):
 *
 *     cc -I include program.c target/staticlib/libluphwezane.a
 *
 * A session is a luph_settings record, the pictures it is about and the planes that the caller keeps for it.
 * luph_open fills the held planes. luph_get answers how the total would change if a block of depths were
 * replaced, and writes nothing; luph_set replaces it. What takes the block's place is a candidate: a full block of
 * depths, one value, or two regions with a value each, parted by a line or by a mask. luph_set saves the depths that
 * were there in a journal, and luph_take_back writes the newest saved ones back. luph_move moves the seat, the position
 * that the combined picture is shown from: with new settings and a new reference it draws everything again over the
 * depths as they stand. Between these calls the caller keeps pictures, planes and settings as the last call left them;
 * from an accepted luph_move on, the reference is the one that it was passed.
 *
 * Lengths, in entries, for w columns and h rows, all in row order:
 *
 *     textures, reference, depths, samples, fronts, limits, combined     w * h
 *     marks                                                              ((w + 7) / 8) * h
 *
 * Marks are packed: the mark of column x of a row is bit x % 8 of byte x / 8 of that row; bits past the last
 * column are zero.
 *
 * Samples have ten bits, 0 to 1,023, in entries of 16: the textures, the reference, the drawn samples and the
 * combined picture. luph_open and luph_move refuse a texture or reference with a higher entry. The other calls read a
 * higher entry of a texture or reference as 1,023, and luph_get, luph_set and luph_take_back read a higher drawn or
 * combined sample so too; luph_check compares drawn and combined samples as they are, so that a higher one is a
 * difference.
 *
 * The journal is words of 32 bits, as many as the caller likes, and the caller's alone: the library keeps no copy.
 * Word 0 is the index of the newest record, 0 for none. A record is 6 words and one for each depth of its block; at
 * index i it has
 *
 *     word i          the index of the record before, 0 for none
 *     word i + 1      view
 *     word i + 2      first column
 *     word i + 3      first row
 *     word i + 4      width
 *     word i + 5      height
 *     word i + 6 ...  the depths that were there: width * height, in row order, one a word
 *
 * luph_open and luph_move empty the journal: they write 0 to word 0. An accepted luph_set puts its record directly after
 * the newest one, or after word 0 where there is none. luph_take_back gives word 0 the index of the record before, and the
 * next luph_set uses the space again. So a journal for n SETs of blocks of width * height needs
 * 1 + n * (6 + width * height) words. luph_open, luph_move and luph_take_back write word 0 alone, luph_set word 0 and its
 * record, luph_get has no journal.
 *
 * Every luph_set and luph_take_back examines the whole chain of records before it relies on it: a call takes time for
 * each saved depth. A caller that no longer needs to take back what it set calls luph_keep, which empties the journal and
 * leaves the session as it is; one with a long list of SETs should, for example when a coding unit is decided.
 *
 * Where luph_open and every luph_set, luph_take_back and luph_move of a session are passed one journal that nothing else
 * writes, no other session either, luph_take_back restores depths, held planes and total to what they were before the
 * newest SET that still stands, and answers its change negated. It is refused with 12 exactly where none stands, and 13
 * never occurs. After an accepted luph_move none stands: what was set before it stays. All of this holds again from a
 * luph_keep on, for the SETs after it. With another journal luph_take_back writes what the newest record says, whoever
 * wrote it.
 *
 * Every call answers 0 (LUPH_ACCEPTED) or the number of the first refusal that applies, in the order given with
 * the call. A refused call writes nothing: no plane, no settings, no word of the journal, no answer.
 *
 * Planes and journal must not overlap: one that is lent for writing shares no byte with any other argument of the call,
 * nor with the bytes of a candidate. Only luph_move's new settings may be the session's own. Lengths and numbers may be
 * anything. A `data` of NULL counts as length 0. Pointers to structs and to answers must be valid, and so must a slice's
 * other than NULL; only the bytes of a candidate whose kind has none may be anything.
 *
 * The library keeps no state of its own and allocates nothing. Calls on different sessions with different journals may
 * run at the same time, and so may calls that only read (luph_get, luph_check, luph_holes) on one session.
 */
#ifndef LUPHWEZANE_H
#define LUPHWEZANE_H

#include <stddef.h>
#include <stdint.h>

/* What a call answers. */
enum {
    LUPH_ACCEPTED = 0,
    LUPH_REFUSED_SIZE = 1,                  /* w or h outside 1 to 4,096 */
    LUPH_REFUSED_PLANE = 2,                 /* a plane without its exact length */
    LUPH_REFUSED_TABLE = 3,                 /* an entry of either table above 1,023 */
    LUPH_REFUSED_SHARE = 4,                 /* share above 64 */
    LUPH_REFUSED_BOUNDS = 5,                /* a block of zero width or height, or reaching past an edge */
    LUPH_REFUSED_VIEW = 6,                  /* a view neither 0 nor 1 */
    LUPH_REFUSED_CANDIDATE = 7,             /* a full block without width * height depths, or a candidate of an unknown kind */
    LUPH_REFUSED_TOTAL = 8,                 /* total plus change below 0 or above 1,046,529 * w * h; never in a session that is kept as above */
    LUPH_REFUSED_JOURNAL_FULL = 11,         /* the words beyond the newest record cannot hold the new one, or its index passes 32 bits */
    LUPH_REFUSED_NOTHING_TO_TAKE_BACK = 12, /* the journal has no record */
    LUPH_REFUSED_JOURNAL = 13,              /* a journal of no words; or, but for luph_open and luph_move, one with a wrong chain of records */
    LUPH_REFUSED_LINE = 14,                 /* a line's point inside the block or outside it, or two points on one side */
    LUPH_REFUSED_MASK = 15,                 /* a mask without (width * height + 7) / 8 bytes */
    LUPH_REFUSED_GAP = 20,                  /* widest_gap outside 4 to 64, or torn_distance above 3 */
    LUPH_REFUSED_SAMPLE = 21                /* luph_open and luph_move: a texture or reference entry above 1,023 */
};

/*
 * The settings of a session.
 *
 * A column's place is where its disparity shifts it to. Two neighbours whose places lie at most widest_gap apart are one
 * surface, and what lies between them is interpolated. Further apart they are torn: the first, as the view reads the row, is
 * shown up to torn_distance past its place, and the rest of the gap is a hole, which the far one fills. The last column of a
 * row is shown so far too, and what is left of the row is a hole. 8 and 1 are the usual numbers.
 */
typedef struct luph_settings {
    uint32_t w;            /* columns, 1 to 4,096 */
    uint32_t h;            /* rows, 1 to 4,096 */
    uint16_t left[256];    /* the left view's disparity of each depth, in quarter samples, 0 to 1,023 */
    uint16_t right[256];   /* the same for the right view */
    uint8_t share;         /* the right view's part where both views show a position, in 64ths, 0 to 64 */
    uint8_t tolerance;     /* how far front depths may differ for both views to be mixed */
    uint8_t widest_gap;    /* the widest gap within one surface, in quarter samples, 4 to 64 */
    uint8_t torn_distance; /* how far a column is shown into a hole, in quarter samples, 0 to 3 */
    uint64_t total;        /* the combined picture's sum of squared errors; luph_open, luph_set, luph_take_back and luph_move write it */
} luph_settings;

/* Bytes that a call only reads: depths, a candidate's bytes and marks. */
typedef struct luph_in {
    const uint8_t *data; /* the first entry */
    size_t len;          /* the number of entries */
} luph_in;

/* Bytes that a call may write: depths, fronts and marks. */
typedef struct luph_out {
    uint8_t *data; /* the first entry */
    size_t len;    /* the number of entries */
} luph_out;

/* Samples, 0 to 1,023, that a call only reads. */
typedef struct luph_picture {
    const uint16_t *data; /* the first entry */
    size_t len;           /* the number of entries */
} luph_picture;

/* Samples, 0 to 1,023, that a call may write. */
typedef struct luph_samples {
    uint16_t *data; /* the first entry */
    size_t len;     /* the number of entries */
} luph_samples;

/* Limits, which are signed, in quarter samples. */
typedef struct luph_limits {
    int16_t *data; /* the first entry */
    size_t len;    /* the number of entries */
} luph_limits;

/* A journal, in which luph_set saves what luph_take_back writes back. A `data` of NULL counts as no words. */
typedef struct luph_journal {
    uint32_t *data; /* word 0 */
    size_t len;     /* the number of words */
} luph_journal;

/* The pictures of a session, which no call writes. View 0 is left, view 1 right. */
typedef struct luph_pictures {
    luph_picture texture[2]; /* each view's texture */
    luph_picture reference;  /* what the combined picture is measured against */
} luph_pictures;

/*
 * The planes of a session. Depths are given to luph_open, written by luph_set and luph_take_back and read by luph_move; the
 * others are held.
 */
typedef struct luph_planes {
    luph_out depth[2];      /* each view's depths, larger is nearer */
    luph_samples sample[2]; /* each view's drawn samples */
    luph_out front[2];      /* the depth that is seen at each drawn position */
    luph_out marks[2];      /* each view's hole marks, packed; 1 is a hole */
    luph_samples combined;  /* the picture combined from both views */
    luph_limits limit[2];   /* each view's limits: the least place of the column and of all that the view reads after it */
} luph_planes;

/* A block of a depth plane. */
typedef struct luph_block {
    uint32_t column; /* its first column */
    uint32_t row;    /* its first row */
    uint32_t width;  /* its columns, at least 1 */
    uint32_t height; /* its rows, at least 1 */
} luph_block;

/* The kinds of a candidate. */
enum { LUPH_FULL = 0, LUPH_FLAT = 1, LUPH_LINE = 2, LUPH_MASK = 3 };

/*
 * What luph_get tries and luph_set writes in a block; luph_full, luph_flat, luph_line and luph_mask make one.
 *
 * A line goes from one point of the block's border to another. The sides of a block are its first and last column and
 * its first and last row; a corner lies on two. The points have no side in common, so that a block of one column or
 * one row has no line. A position of the block is in region 1 where
 *
 *     (end_column - start_column) * (row - start_row) - (end_row - start_row) * (column - start_column)
 *
 * is above 0, its column and row counted from the block's first, else in region 0. For a line from the first row down
 * to the last, region 1 is at the left; for one from the first column to the last, below.
 *
 * A mask has a bit for each position, by rows without gaps, low bit first: position k, counted by rows, has bit k % 8
 * of byte k / 8. 1 is region 1. The bits past the last position are not looked at.
 */
typedef struct luph_candidate {
    uint32_t kind;                    /* one of the above; another number is refused with 7 */
    uint8_t value[2];                 /* one value: value[0]; line and mask: the values of region 0 and of region 1 */
    uint32_t start_column, start_row; /* a line's start, counted from the block's first column and row */
    uint32_t end_column, end_row;     /* its end */
    luph_in bytes;                    /* full block: its depths in row order; mask: its bits; else not looked at */
} luph_candidate;

/* A full block: width * height depths in row order. */
static inline luph_candidate luph_full(luph_in depths) {
    const luph_candidate x = {LUPH_FULL, {0, 0}, 0, 0, 0, 0, depths};
    return x;
}

/* One value for the whole block. */
static inline luph_candidate luph_flat(uint8_t depth) {
    const luph_candidate x = {LUPH_FLAT, {depth, 0}, 0, 0, 0, 0, {NULL, 0}};
    return x;
}

/* Two regions, parted by a line. */
static inline luph_candidate luph_line(uint32_t start_column, uint32_t start_row, uint32_t end_column, uint32_t end_row, uint8_t value0,
    uint8_t value1) {
    const luph_candidate x = {LUPH_LINE, {value0, value1}, start_column, start_row, end_column, end_row, {NULL, 0}};
    return x;
}

/* Two regions, told by a mask of (width * height + 7) / 8 bytes. */
static inline luph_candidate luph_mask(luph_in bits, uint8_t value0, uint8_t value1) {
    const luph_candidate x = {LUPH_MASK, {value0, value1}, 0, 0, 0, 0, bits};
    return x;
}

/* What luph_check found. */
typedef struct luph_report {
    int kind;        /* 0 sound, 1 a difference at row and column, 2 only the total differs */
    uint32_t row;    /* row of the first difference by rows; 0 for other kinds */
    uint32_t column; /* its column; 0 for other kinds */
} luph_report;

/* ---- The symbols of the library, for the functions below only. A slice is a pointer and then a length. ---- */

#ifdef __cplusplus
extern "C" {
#endif

/* A candidate but for its bytes. */
typedef struct luph_private_shape {
    uint32_t kind;
    uint8_t value[2];
    uint32_t start_column, start_row, end_column, end_row;
} luph_private_shape;

#define LUPH_RAW_IN(name) const uint8_t *name, size_t name##_len
#define LUPH_RAW_OUT(name) uint8_t *name, size_t name##_len
#define LUPH_RAW_IN_SAMPLES(name) const uint16_t *name, size_t name##_len
#define LUPH_RAW_OUT_SAMPLES(name) uint16_t *name, size_t name##_len
#define LUPH_RAW_IN_LIMITS(name) const int16_t *name, size_t name##_len
#define LUPH_RAW_OUT_LIMITS(name) int16_t *name, size_t name##_len
#define LUPH_RAW_JOURNAL uint32_t *journal, size_t journal_len
#define LUPH_RAW_PICTURES LUPH_RAW_IN_SAMPLES(left), LUPH_RAW_IN_SAMPLES(right), LUPH_RAW_IN_SAMPLES(reference)
#define LUPH_RAW_DEPTHS(bytes) bytes(left_depths), bytes(right_depths)
#define LUPH_RAW_HELD(bytes, samples, limits)                                            \
    samples(left_samples), bytes(left_fronts), limits(left_limits), bytes(left_marks),   \
    samples(right_samples), bytes(right_fronts), limits(right_limits), bytes(right_marks), samples(combined)
#define LUPH_RAW_HELD_IN LUPH_RAW_HELD(LUPH_RAW_IN, LUPH_RAW_IN_SAMPLES, LUPH_RAW_IN_LIMITS)
#define LUPH_RAW_HELD_OUT LUPH_RAW_HELD(LUPH_RAW_OUT, LUPH_RAW_OUT_SAMPLES, LUPH_RAW_OUT_LIMITS)

uint32_t luph_raw_render(luph_settings settings, uint32_t view, LUPH_RAW_IN_SAMPLES(texture), LUPH_RAW_IN(depths),
    LUPH_RAW_OUT_SAMPLES(samples), LUPH_RAW_OUT(marks), LUPH_RAW_OUT(fronts));
uint32_t luph_raw_open(luph_settings settings, LUPH_RAW_PICTURES, LUPH_RAW_DEPTHS(LUPH_RAW_IN),
    LUPH_RAW_HELD_OUT, LUPH_RAW_JOURNAL, uint64_t *total);
uint32_t luph_raw_move(luph_settings settings, luph_settings to, LUPH_RAW_PICTURES, LUPH_RAW_DEPTHS(LUPH_RAW_IN),
    LUPH_RAW_HELD_OUT, LUPH_RAW_JOURNAL, uint64_t *total);
uint32_t luph_raw_get(uint32_t w, uint32_t h, const uint16_t *left_table, const uint16_t *right_table, uint8_t share,
    uint8_t tolerance, uint8_t widest_gap, uint8_t torn_distance, uint64_t total, LUPH_RAW_PICTURES, LUPH_RAW_DEPTHS(LUPH_RAW_IN),
    LUPH_RAW_HELD_IN, uint32_t view, luph_block block, luph_private_shape shape, LUPH_RAW_IN(bytes), int64_t *change);
uint32_t luph_raw_set(luph_settings settings, LUPH_RAW_PICTURES, LUPH_RAW_DEPTHS(LUPH_RAW_OUT),
    LUPH_RAW_HELD_OUT, LUPH_RAW_JOURNAL, uint32_t view, luph_block block, luph_private_shape shape, LUPH_RAW_IN(bytes),
    int64_t *change, uint64_t *total);
uint32_t luph_raw_take_back(luph_settings settings, LUPH_RAW_PICTURES, LUPH_RAW_DEPTHS(LUPH_RAW_OUT),
    LUPH_RAW_HELD_OUT, LUPH_RAW_JOURNAL, int64_t *change, uint64_t *total);
uint32_t luph_raw_check(luph_settings settings, LUPH_RAW_PICTURES, LUPH_RAW_DEPTHS(LUPH_RAW_IN),
    LUPH_RAW_HELD_IN, uint32_t *kind, uint32_t *row, uint32_t *column);
uint32_t luph_raw_holes(luph_settings settings, uint32_t view, LUPH_RAW_IN(left), LUPH_RAW_IN(right), uint64_t *count);

#undef LUPH_RAW_IN
#undef LUPH_RAW_OUT
#undef LUPH_RAW_IN_SAMPLES
#undef LUPH_RAW_OUT_SAMPLES
#undef LUPH_RAW_IN_LIMITS
#undef LUPH_RAW_OUT_LIMITS
#undef LUPH_RAW_JOURNAL
#undef LUPH_RAW_PICTURES
#undef LUPH_RAW_DEPTHS
#undef LUPH_RAW_HELD
#undef LUPH_RAW_HELD_IN
#undef LUPH_RAW_HELD_OUT

#ifdef __cplusplus
}
#endif

/* The same slice; a NULL becomes a slice of length 0 whose pointer is valid. */
static inline luph_in luph_private_in(luph_in x) {
    static const uint8_t none = 0;
    if (x.data == NULL) {
        x.data = &none;
        x.len = 0;
    }
    return x;
}

static inline luph_out luph_private_out(luph_out x) {
    static uint8_t none = 0;
    if (x.data == NULL) {
        x.data = &none;
        x.len = 0;
    }
    return x;
}

static inline luph_picture luph_private_picture(luph_picture x) {
    static const uint16_t none = 0;
    if (x.data == NULL) {
        x.data = &none;
        x.len = 0;
    }
    return x;
}

static inline luph_samples luph_private_samples(luph_samples x) {
    static uint16_t none = 0;
    if (x.data == NULL) {
        x.data = &none;
        x.len = 0;
    }
    return x;
}

static inline luph_limits luph_private_limits(luph_limits x) {
    static int16_t none = 0;
    if (x.data == NULL) {
        x.data = &none;
        x.len = 0;
    }
    return x;
}

static inline luph_journal luph_private_journal(luph_journal x) {
    static uint32_t none = 0;
    if (x.data == NULL) {
        x.data = &none;
        x.len = 0;
    }
    return x;
}

/* The bytes that a candidate of this kind has; none where its kind has none. */
static inline luph_in luph_private_bytes(luph_candidate x) {
    static const uint8_t none = 0;
    const luph_in empty = {&none, 0};
    switch (x.kind) {
    case LUPH_FULL:
    case LUPH_MASK: return x.bytes.data == NULL ? empty : x.bytes;
    default: return empty;
    }
}

/* The rest of a candidate. */
static inline luph_private_shape luph_private_shape_of(luph_candidate x) {
    const luph_private_shape shape = {x.kind, {x.value[0], x.value[1]}, x.start_column, x.start_row, x.end_column, x.end_row};
    return shape;
}

/*
 * A call passes the slices straight from the caller's structs; only where one is NULL it passes those of a filled copy.
 * Both functions stay out of the calls: with the test inside, compilers load every pointer for it and store it again.
 */
#ifdef __GNUC__
#define LUPH_PRIVATE_APART static __attribute__((noinline, unused))
#else
#define LUPH_PRIVATE_APART static inline
#endif

/* Pictures and planes without a NULL. */
typedef struct luph_private_copy {
    luph_pictures pictures;
    luph_planes planes;
} luph_private_copy;

LUPH_PRIVATE_APART int luph_private_has_null(const luph_pictures *p, const luph_planes *q) {
    return p->texture[0].data == NULL || p->texture[1].data == NULL || p->reference.data == NULL ||
        q->depth[0].data == NULL || q->sample[0].data == NULL || q->front[0].data == NULL || q->marks[0].data == NULL ||
        q->depth[1].data == NULL || q->sample[1].data == NULL || q->front[1].data == NULL || q->marks[1].data == NULL ||
        q->limit[0].data == NULL || q->limit[1].data == NULL || q->combined.data == NULL;
}

LUPH_PRIVATE_APART void luph_private_fill(luph_private_copy *x, const luph_pictures *p, const luph_planes *q) {
    x->pictures.reference = luph_private_picture(p->reference);
    x->planes.combined = luph_private_samples(q->combined);
    for (int v = 0; v < 2; v++) {
        x->pictures.texture[v] = luph_private_picture(p->texture[v]);
        x->planes.depth[v] = luph_private_out(q->depth[v]);
        x->planes.sample[v] = luph_private_samples(q->sample[v]);
        x->planes.front[v] = luph_private_out(q->front[v]);
        x->planes.marks[v] = luph_private_out(q->marks[v]);
        x->planes.limit[v] = luph_private_limits(q->limit[v]);
    }
}

/* How pictures and planes are written as arguments. */
#define LUPH_RAW_SLICE(x) (x).data, (x).len
#define LUPH_RAW_ALL(p, q)                                                                                                       \
    LUPH_RAW_SLICE((p)->texture[0]), LUPH_RAW_SLICE((p)->texture[1]), LUPH_RAW_SLICE((p)->reference),                            \
    LUPH_RAW_SLICE((q)->depth[0]), LUPH_RAW_SLICE((q)->depth[1]),                                                                \
    LUPH_RAW_SLICE((q)->sample[0]), LUPH_RAW_SLICE((q)->front[0]), LUPH_RAW_SLICE((q)->limit[0]), LUPH_RAW_SLICE((q)->marks[0]), \
    LUPH_RAW_SLICE((q)->sample[1]), LUPH_RAW_SLICE((q)->front[1]), LUPH_RAW_SLICE((q)->limit[1]), LUPH_RAW_SLICE((q)->marks[1]), \
    LUPH_RAW_SLICE((q)->combined)

/* ---- The calls. ---- */

/*
 * RENDER: draws one row of one view, with that view's table, into samples, packed marks and front depths. A sample
 * between two columns of one surface is interpolated by the H.265 luma filters, in quarters, and held to 0 to
 * 1,023; the edge of a near object that hides columns begins at the rounded place, with the object's sample and
 * depth and no mark. A texture entry above 1,023 is read as 1,023. texture, depth, sample and front have s->w
 * entries, marks (s->w + 7) / 8; s->h, share, tolerance and total are not looked at. Refuses 1 (by w alone), 2, 3, 20,
 * then 6.
 */
static inline int luph_render(const luph_settings *s, uint32_t view, luph_picture texture, luph_in depth, luph_samples sample,
    luph_out marks, luph_out front) {
    texture = luph_private_picture(texture);
    depth = luph_private_in(depth);
    sample = luph_private_samples(sample);
    marks = luph_private_out(marks);
    front = luph_private_out(front);
    return (int)luph_raw_render(*s, view, LUPH_RAW_SLICE(texture), LUPH_RAW_SLICE(depth), LUPH_RAW_SLICE(sample), LUPH_RAW_SLICE(marks),
        LUPH_RAW_SLICE(front));
}

/*
 * OPEN: draws both views from pictures and depths into the held planes, writes the total to s->total and empties the
 * journal; the total passed in is ignored, and so is what the journal holds. Depths are only read. Refuses 1, 2, 3, 4,
 * 20, 13 (a journal of no words), then 21: a texture or reference entry above 1,023.
 */
static inline int luph_open(luph_settings *s, const luph_pictures *p, const luph_planes *q, luph_journal journal) {
    luph_private_copy copy;
    if (luph_private_has_null(p, q)) {
        luph_private_fill(&copy, p, q);
        p = &copy.pictures;
        q = &copy.planes;
    }
    journal = luph_private_journal(journal);
    uint64_t total = 0;
    const uint32_t number = luph_raw_open(*s, LUPH_RAW_ALL(p, q), LUPH_RAW_SLICE(journal), &total);
    if (number == 0) s->total = total;
    return (int)number;
}

/*
 * MOVE: moves the seat. Tables, share, tolerance, widest_gap and torn_distance of *to become those of the session, and the
 * reference of p its reference; w, h and total of *to are not looked at. All rows of both views and the combined picture are
 * drawn again over the depths as they stand, as luph_open would draw them; *s takes the new values and the new total, and
 * the journal is emptied, so that no SET before it can be taken back. p's textures are the session's. Depths are only read,
 * and what the held planes and the journal hold is not looked at. `to` may be `s`.
 *
 * Refuses as OPEN does, judged by w and h of *s and by what is new: 1, 2, 3, 4, 20, 13 (a journal of no words), then 21. A
 * refused MOVE leaves the session as it was; the calls after it are passed the reference that it had.
 */
static inline int luph_move(luph_settings *s, const luph_pictures *p, const luph_planes *q, luph_journal journal,
    const luph_settings *to) {
    luph_private_copy copy;
    if (luph_private_has_null(p, q)) {
        luph_private_fill(&copy, p, q);
        p = &copy.pictures;
        q = &copy.planes;
    }
    journal = luph_private_journal(journal);
    uint64_t total = 0;
    const uint32_t number = luph_raw_move(*s, *to, LUPH_RAW_ALL(p, q), LUPH_RAW_SLICE(journal), &total);
    if (number == 0) {
        luph_settings moved = *to;
        moved.w = s->w;
        moved.h = s->h;
        moved.total = total;
        *s = moved;
    }
    return (int)number;
}

/*
 * GET: answers in *change how the total would change if the block of the view's depths were the candidate: a full
 * block's depths, or the values of one value, a line or a mask at the positions that they fill. Reads samples above
 * 1,023, of the pictures and of the planes, as 1,023. Writes no plane. Refuses 1, 2, 3, 4, 20, 6, 5, then by the
 * candidate's kind 7 (a full block, or an unknown kind), 14 (a line) or 15 (a mask), then 8.
 *
 * How far one depth can move the total is known before the call, whatever the pictures show: rate controllers can plan by it.
 * Take a block of one column x and one row y, in a session that is kept as above. A caller needs the view's table and, from
 * the view's planes, three entries: the depth at entry i = y * w + x, the depth of the column before and the limit of the
 * next column. The left view reads a row from left to right. The right view reads it from right to left: there the column
 * before is the one at the right, and the next column is the one at the left.
 *
 *     left view:   c = x            before = i - 1   next = i + 1
 *     right view:  c = w - 1 - x    before = i + 1   next = i - 1
 *
 * In signed numbers, with d for the depth that the candidate gives the block:
 *
 *     least = the least of  4 * c - table[depth[i]],
 *                           4 * c - table[d],
 *                           and, unless c is 0,  4 * (c - 1) - table[depth[before]]
 *     low   = max(least - 1, 0)
 *     high  = limit[next],  or 4 * w where c is w - 1
 *     L     = high - low
 *     bound = 1046529 * ((L + 3) / 4)
 *
 * Of an accepted call: where L is 0 or less, *change is 0; where L is above 0, *change is from -bound to bound.
 */
static inline int luph_get(const luph_settings *s, const luph_pictures *p, const luph_planes *q, uint32_t view, luph_block b,
    luph_candidate candidate, int64_t *change) {
    luph_private_copy copy;
    if (luph_private_has_null(p, q)) {
        luph_private_fill(&copy, p, q);
        p = &copy.pictures;
        q = &copy.planes;
    }
    const luph_in bytes = luph_private_bytes(candidate);
    int64_t found; /* written by an accepted call */
    const uint32_t number = luph_raw_get(s->w, s->h, s->left, s->right, s->share, s->tolerance, s->widest_gap, s->torn_distance,
        s->total, LUPH_RAW_ALL(p, q), view, b, luph_private_shape_of(candidate), LUPH_RAW_SLICE(bytes), &found);
    if (number == 0) *change = found;
    return (int)number;
}

/*
 * SET: writes the candidate into the block, brings the held planes up to date, saves the depths that were there in the
 * journal, in 6 + width * height words, and answers the change in *change and the new total in s->total. Reads samples
 * and refuses as GET does, in that order, then 13 and 11.
 *
 * 13: the journal has no words, or somewhere in the chain of its records an index is not below the one before it, a
 * record reaches past the end of the journal, its block is empty or reaches past an edge of the picture, its view is
 * above 1 or one of its depths above 255. 11: the record has no room. Time is taken for every word of the chain:
 * luph_keep a journal whose SETs need not be taken back. A SET of one depth has the bound that luph_get names.
 *
 * SETs whose blocks share no position of the same view may be made in any order, one after the other. In a session that is
 * kept as above, depths, held planes and total are then the same in the end, and the answers add up to the same sum; a
 * single answer may depend on the order. Two blocks of one view share no position where one ends before the other begins,
 * in columns or in rows:
 *
 *     a.column + a.width <= b.column || b.column + b.width <= a.column ||
 *     a.row + a.height <= b.row || b.row + b.height <= a.row
 *
 * The journals differ: their records stand in the order of the calls. Calls that write one session must not run at the same
 * time. In such a session a SET of the depths that the block has answers a change of 0 and writes a record; depths, held
 * planes and total stay as they are.
 */
static inline int luph_set(luph_settings *s, const luph_pictures *p, const luph_planes *q, luph_journal journal, uint32_t view,
    luph_block b, luph_candidate candidate, int64_t *change) {
    luph_private_copy copy;
    if (luph_private_has_null(p, q)) {
        luph_private_fill(&copy, p, q);
        p = &copy.pictures;
        q = &copy.planes;
    }
    journal = luph_private_journal(journal);
    const luph_in bytes = luph_private_bytes(candidate);
    int64_t found = 0;
    uint64_t total = 0;
    const uint32_t number = luph_raw_set(*s, LUPH_RAW_ALL(p, q), LUPH_RAW_SLICE(journal), view, b, luph_private_shape_of(candidate),
        LUPH_RAW_SLICE(bytes), &found, &total);
    if (number == 0) {
        *change = found;
        s->total = total;
    }
    return (int)number;
}

/*
 * TAKE BACK: writes the depths of the journal's newest record into its block as a SET of them would, answers the change
 * in *change and the new total in s->total as that SET would, saves nothing, and gives word 0 of the journal the index of
 * the record before. Reads samples as GET does. Refuses 1, 2, 3, 4, 20, 13 as SET does, 12, then 8.
 */
static inline int luph_take_back(luph_settings *s, const luph_pictures *p, const luph_planes *q, luph_journal journal,
    int64_t *change) {
    luph_private_copy copy;
    if (luph_private_has_null(p, q)) {
        luph_private_fill(&copy, p, q);
        p = &copy.pictures;
        q = &copy.planes;
    }
    journal = luph_private_journal(journal);
    int64_t found = 0;
    uint64_t total = 0;
    const uint32_t number = luph_raw_take_back(*s, LUPH_RAW_ALL(p, q), LUPH_RAW_SLICE(journal), &found, &total);
    if (number == 0) {
        *change = found;
        s->total = total;
    }
    return (int)number;
}

/*
 * Empties a journal, so that the SETs in it stay and the next ones find a short chain: word 0 becomes 0, where there is
 * one. No other word is written, and no session is changed.
 */
static inline void luph_keep(luph_journal journal) {
    if (journal.data != NULL && journal.len != 0) journal.data[0] = 0;
}

/*
 * CHECK: compares every held entry with a fresh drawing of the depths and answers in *r: sound, or row and column
 * of the first difference by rows, or the total if only that differs. Bits past a row's last column count with
 * that column. The fresh drawing reads texture and reference entries above 1,023 as 1,023; held samples are compared
 * as they are. Writes no plane. Refuses 1, 2, 3, 4, 20.
 */
static inline int luph_check(const luph_settings *s, const luph_pictures *p, const luph_planes *q, luph_report *r) {
    luph_private_copy copy;
    if (luph_private_has_null(p, q)) {
        luph_private_fill(&copy, p, q);
        p = &copy.pictures;
        q = &copy.planes;
    }
    uint32_t kind = 0, row = 0, column = 0;
    const uint32_t number = luph_raw_check(*s, LUPH_RAW_ALL(p, q), &kind, &row, &column);
    if (number == 0) {
        r->kind = (int)kind;
        r->row = kind == 1 ? row : 0;
        r->column = kind == 1 ? column : 0;
    }
    return (int)number;
}

/*
 * HOLES: counts in *count the chosen view's marks of 1 at columns below w. marks0 and marks1 are the left and the
 * right view's marks. Refuses 1, 2, then 6.
 */
static inline int luph_holes(const luph_settings *s, uint32_t view, luph_in marks0, luph_in marks1, uint64_t *count) {
    const luph_in left = luph_private_in(marks0), right = luph_private_in(marks1);
    uint64_t found = 0;
    const uint32_t number = luph_raw_holes(*s, view, LUPH_RAW_SLICE(left), LUPH_RAW_SLICE(right), &found);
    if (number == 0) *count = found;
    return (int)number;
}

#undef LUPH_PRIVATE_APART
#undef LUPH_RAW_SLICE
#undef LUPH_RAW_ALL

#endif
