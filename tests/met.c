/* What was met: how often each call was compared, each refusal number given, each kind of place told, and each kind of accepted input
 * tried. */
#include "met.h"

#include "peer.h"

#include <stdio.h>
#include <string.h>

enum { NUMBERS = 21, LOOKED_AT = 1000000, CLOSED_AT = 40, PLANNED_AT = 4096 };

unsigned long compared[CALLS];

static unsigned long met[CALLS][NUMBERS];

/* The refusal numbers that each call can give, 0 for acceptance; 15 cannot be reached. */
static const char *const can_give[CALLS] = {"0 2 3 ", "0 1 2 3 4 5 6 7 ", "0 1 2 3 4 5 6 7 18 ", "0 1 2 3 4 5 7 20 ",
                                            "0 1 2 3 4 5 6 7 8 9 10 11 19 ", "0 1 2 3 7 8 12 13 14 ", "", "",
                                            "0 1 2 3 6 7 8 12 13 14 ", "0 1 2 3 4 5 6 7 8 16 "};

enum kind {
    REACH_0, REACH_MIDDLE, REACH_32,
    PLAN_ONE_LAYER, PLAN_NOTHING, PLAN_SUPPORT, PLAN_RINGS, PLAN_LONG_RINGS, PLAN_CARRIED, PLAN_STOPPED, PLAN_NOT_JOINED,
    PLAN_WIDEST, PLAN_HIGHEST, PLAN_LAYERS, PLAN_REACH_32, PLAN_BETWEEN, PLAN_BOUND_1088,
    CLEAN_GAP_0, CLEAN_GAP_1, CLEAN_GAP_2, CLEAN_GAP_10, CLEAN_GAP_31, CLEAN_GAP_32, CLEAN_GAP_33, CLEAN_GAP_HUGE, CLEAN_LENGTH,
    CLEAN_ONE_LAYER, CLEAN_CLOSED, CLEAN_AT_BORDER, CLEAN_NOTHING, CLEAN_WITHOUT_PART, CLEAN_WITHOUT_EXCUSED, CLEAN_CARRIED, CLEAN_STOPPED,
    CLEAN_EMPTY, CLEAN_ALONE, CLEAN_WIDEST, CLEAN_HIGHEST, CLEAN_LAYERS,
    POSTS_RADIUS_0, POSTS_REACH_0, POSTS_REACH_1, POSTS_REACH_2, POSTS_REACH_10, POSTS_REACH_31, POSTS_REACH_32, POSTS_LONGEST, POSTS_BETWEEN,
    POSTS_BOUND_1088, POSTS_OVER, POSTS_REACH_33, POSTS_HUGE, POSTS_ONE_LAYER, POSTS_NOTHING, POSTS_NEW, POSTS_HELD, POSTS_DOWN, POSTS_STOPPED,
    POSTS_ABOVE_ALONE, POSTS_ABOVE_AND_NEW, POSTS_IDLE, POSTS_WIDEST, POSTS_HIGHEST, POSTS_LAYERS,
    CHECK_AS_PLANNED, CHECK_MORE, CHECK_LARGER, CHECK_FEWER, CHECK_ONE_LAYER,
    BAD_NO_SHADOW, BAD_NOT_NEAR, BAD_NO_NEIGHBOUR,
    PART_THEN_SUPPORT, PART_LAYERS_SUPPORT, SUPPORT_THEN_PART, SUPPORT_LAYERS_PART,
    READ_STORED, READ_NONE, READ_ONE_LAYER, READ_SHORT,
    PART_HANDED, PART_EMPTY, SUPPORT_HANDED, SUPPORT_EMPTY,
    COPY_SOME, COPY_NONE,
    WRITE_STORED, WRITE_NONE, WRITE_EXACT, WRITE_LONGER,
    NULL_BUFFER, LONG_BUFFER, LARGEST_SIZE,
    KINDS
};

static const char *const kind_names[KINDS] = {
    "reach: 0", "reach: 1 to 31", "reach: 32",
    "plan: one layer", "plan: neither support nor rings", "plan: support", "plan: rings", "plan: a ring over 255",
    "plan: support from above carried down", "plan: support from above stopped by part", "plan: near but not joined",
    "plan: width 256 with support or rings", "plan: height 256 with support or rings", "plan: 512 layers with support or rings",
    "plan: rings with reach 32", "plan: a ring that whole pixels of overhang would not give", "plan: rings with the bound 1,088",
    "clean: gap 0", "clean: gap 1", "clean: gap 2", "clean: gap 10", "clean: gap 31", "clean: gap 32", "clean: gap 33 refused",
    "clean: gap 2^64 - 1 refused", "clean: refused by the length of cleaned alone",
    "clean: one layer", "clean: a gap closed", "clean: closed at the image's edge", "clean: support with nothing to close",
    "clean: a closed pixel left out for part", "clean: a closed pixel left out for a ring",
    "clean: closed above and carried down", "clean: closed above and stopped by part",
    "clean: a layer without support under one with some", "clean: a layer with cleaned support alone",
    "clean: width 256 with a gap closed", "clean: height 256 with a gap closed", "clean: 512 layers with a gap closed",
    "posts: radius 0", "posts: reach 0", "posts: reach 1", "posts: reach 2", "posts: reach 10", "posts: reach 31", "posts: reach 32",
    "posts: radius 10,000", "posts: posts that whole pixels of radius would not give", "posts: pixels held with the bound 1,088",
    "posts: radius 10,001 refused", "posts: reach 33 just so refused", "posts: radius 2^32 - 1 refused",
    "posts: one layer", "posts: none", "posts: a new post", "posts: a pixel held that is no post", "posts: a post gone down",
    "posts: a post stopped by part", "posts: pixels of a layer held by posts gone down alone", "posts: a layer with posts gone down and new ones",
    "posts: a post gone down under which nothing is left",
    "posts: width 256 with a new post", "posts: height 256 with a new post", "posts: 512 layers with a new post",
    "check: accepted as planned", "check: accepted with more support", "check: accepted with larger rings",
    "check: accepted with support for a ring", "check: accepted with one layer",
    "check: bad ring outside the shadow", "check: bad ring not near", "check: bad ring without a neighbour before it",
    "check: 11 with support unheld behind it in the layer", "check: 11 with support unheld in a layer above",
    "check: 19 with part unheld behind it in the layer", "check: 19 with part unheld in a layer above",
    "read: support stored", "read: none stored", "read: one layer stored", "read: fewer told than there are",
    "part: handed back", "part: empty", "support: handed back", "support: empty",
    "copy_rings: some", "copy_rings: none",
    "write: with support", "write: without", "write: room just enough", "write: room to spare",
    "a null pointer for an empty buffer", "a buffer of 2^32 elements and more", "the largest size",
};

static unsigned long kinds[KINDS];

static void meet(enum kind kind, int is_met) { kinds[kind] += is_met ? 1 : 0; }

/* ---- Kinds of plans ---- */

static int part_at(const struct trial *t, uint64_t layer, uint64_t row, uint64_t column)
{
    return pixel(t->lent[PART_STACK].bytes, t->w, t->h, layer, row, column);
}

static int shadow_at(const struct trial *t, uint64_t plane, uint64_t row, uint64_t column)
{
    return part_at(t, plane + 1, row, column) && !part_at(t, plane, row, column);
}

/* Whether part of the plane is within the given overhang. */
static int near_at(const struct trial *t, int64_t overhang, uint64_t plane, uint64_t row, uint64_t column)
{
    int64_t pitch = t->pitch;
    for (uint64_t r = 0; r < t->h; r++)
        for (uint64_t c = 0; c < t->w; c++) {
            int64_t dr = (int64_t)r - (int64_t)row, dc = (int64_t)c - (int64_t)column;
            if ((dr * dr + dc * dc) * pitch * pitch <= overhang * overhang && part_at(t, plane, r, c)) return 1;
        }
    return 0;
}

struct planned {
    int support, carried, stopped, rings, long_rings, not_joined, between;
};

static void look_at_pixel(const struct trial *t, const struct outcome *o, uint64_t plane, uint64_t row, uint64_t column, struct planned *p)
{
    struct buffer rings;
    unsigned ring;
    int above = pixel(o->after[SUPPORT_STACK], t->w, t->h, plane + 1, row, column);
    int here = pixel(o->after[SUPPORT_STACK], t->w, t->h, plane, row, column);
    rings.bytes = o->after[RING_PLANES];
    ring = ring_at(&rings, (plane * t->h + row) * t->w + column);
    p->support |= here;
    p->carried |= above && here;
    p->stopped |= above && part_at(t, plane, row, column);
    p->rings |= ring > 0;
    p->long_rings |= ring > 255;
    if (t->w * t->h > 100) return;
    if (ring == 0 && shadow_at(t, plane, row, column) && !p->not_joined) p->not_joined = near_at(t, t->overhang, plane, row, column);
    if (ring > 0 && !p->between) p->between = !near_at(t, t->overhang - t->overhang % t->pitch, plane, row, column);
}

static void note_plan(const struct trial *t, const struct outcome *o)
{
    struct planned p;
    if (t->w * t->h * t->n > LOOKED_AT) return;
    memset(&p, 0, sizeof p);
    for (uint64_t plane = 0; plane + 1 < t->n; plane++)
        for (uint64_t row = 0; row < t->h; row++)
            for (uint64_t column = 0; column < t->w; column++) look_at_pixel(t, o, plane, row, column, &p);
    meet(PLAN_ONE_LAYER, t->n == 1);
    meet(PLAN_NOTHING, t->n > 1 && !p.support && !p.rings);
    meet(PLAN_SUPPORT, p.support);
    meet(PLAN_RINGS, p.rings);
    meet(PLAN_LONG_RINGS, p.long_rings);
    meet(PLAN_CARRIED, p.carried);
    meet(PLAN_STOPPED, p.stopped);
    meet(PLAN_NOT_JOINED, p.not_joined);
    meet(PLAN_WIDEST, t->w == 256 && (p.support || p.rings));
    meet(PLAN_HIGHEST, t->h == 256 && (p.support || p.rings));
    meet(PLAN_LAYERS, t->n == 512 && (p.support || p.rings));
    meet(PLAN_REACH_32, t->overhang / t->pitch == 32 && p.rings);
    meet(PLAN_BETWEEN, p.between);
    meet(PLAN_BOUND_1088, t->overhang * t->overhang / (t->pitch * t->pitch) == 1088 && p.rings);
}

/* ---- Kinds of cleaning ---- */

/* Whether planned support of the plane is in the disc of the gap about a pixel. */
static int dilates(const struct trial *t, const struct outcome *o, uint64_t plane, uint64_t row, uint64_t column)
{
    for (uint64_t r = 0; r < t->h; r++)
        for (uint64_t c = 0; c < t->w; c++) {
            uint64_t dr = r - row, dc = c - column; /* squares are the same modulo 2^64 */
            if (dr * dr + dc * dc <= t->gap * t->gap && pixel(o->after[SUPPORT_STACK], t->w, t->h, plane, r, c)) return 1;
        }
    return 0;
}

/* Whether closing the planned support of the plane fills a pixel. */
static int closes(const struct trial *t, const struct outcome *o, uint64_t plane, uint64_t row, uint64_t column)
{
    for (uint64_t r = 0; r < t->h; r++)
        for (uint64_t c = 0; c < t->w; c++) {
            uint64_t dr = r - row, dc = c - column;
            if (dr * dr + dc * dc <= t->gap * t->gap && !dilates(t, o, plane, r, c)) return 0;
        }
    return 1;
}

struct cleaned {
    int support, added, closed, at_border, without_part, without_excused, carried, stopped, empty, alone;
};

/* A pixel of the pair of layers under and at plane + 1: support and cleaned support here, and above it. */
static void look_at_cleaned(const struct trial *t, const struct outcome *o, uint64_t plane, uint64_t row, uint64_t column, struct cleaned *p)
{
    struct buffer rings;
    int support = pixel(o->after[SUPPORT_STACK], t->w, t->h, plane, row, column);
    int here = pixel(o->after[CLEANED_STACK], t->w, t->h, plane, row, column);
    int above = pixel(o->after[CLEANED_STACK], t->w, t->h, plane + 1, row, column);
    int added_above = above && !pixel(o->after[SUPPORT_STACK], t->w, t->h, plane + 1, row, column);
    int closed = here && !support && !above, part = part_at(t, plane, row, column), excused;
    rings.bytes = o->after[RING_PLANES];
    excused = ring_at(&rings, (plane * t->h + row) * t->w + column) > 0;
    p->added |= here && !support;
    p->closed |= closed;
    p->at_border |= closed && (row == 0 || column == 0 || row + 1 == t->h || column + 1 == t->w);
    p->stopped |= added_above && part;
    if (t->w * t->h > CLOSED_AT) return;
    if (part && !p->without_part) p->without_part = closes(t, o, plane, row, column);
    if (excused && !p->without_excused) p->without_excused = closes(t, o, plane, row, column);
    if (here && !support && added_above && !p->carried) p->carried = !closes(t, o, plane, row, column);
}

static int has_pixel(const struct trial *t, const uint8_t *stack, uint64_t layer)
{
    uint64_t bytes = t->h * row_bytes_of(t->w);
    for (uint64_t k = layer * bytes; k < (layer + 1) * bytes; k++)
        if (stack[k] != 0) return 1;
    return 0;
}

static void look_at_layer(const struct trial *t, const struct outcome *o, uint64_t plane, struct cleaned *p)
{
    int support = has_pixel(t, o->after[SUPPORT_STACK], plane);
    p->support |= support;
    p->empty |= !support && has_pixel(t, o->after[SUPPORT_STACK], plane + 1);
    p->alone |= !support && has_pixel(t, o->after[CLEANED_STACK], plane);
    for (uint64_t row = 0; row < t->h; row++)
        for (uint64_t column = 0; column < t->w; column++) look_at_cleaned(t, o, plane, row, column, p);
}

static void note_gap(const struct trial *t)
{
    static const unsigned gaps[] = {0, 1, 2, 10, 31, 32};
    for (int k = 0; k < 6; k++) meet((enum kind)(CLEAN_GAP_0 + k), t->gap == gaps[k]);
}

static void note_cleaned(const struct trial *t, const struct outcome *o)
{
    struct cleaned p;
    note_gap(t);
    if (t->w * t->h * t->n > LOOKED_AT) return;
    memset(&p, 0, sizeof p);
    for (uint64_t plane = 0; plane + 1 < t->n; plane++) look_at_layer(t, o, plane, &p);
    meet(CLEAN_ONE_LAYER, t->n == 1);
    meet(CLEAN_CLOSED, p.closed);
    meet(CLEAN_AT_BORDER, p.at_border);
    meet(CLEAN_NOTHING, t->gap > 0 && p.support && !p.added);
    meet(CLEAN_WITHOUT_PART, p.without_part);
    meet(CLEAN_WITHOUT_EXCUSED, p.without_excused);
    meet(CLEAN_CARRIED, p.carried);
    meet(CLEAN_STOPPED, p.stopped);
    meet(CLEAN_EMPTY, p.empty);
    meet(CLEAN_ALONE, p.alone);
    meet(CLEAN_WIDEST, t->w == 256 && p.closed);
    meet(CLEAN_HIGHEST, t->h == 256 && p.closed);
    meet(CLEAN_LAYERS, t->n == 512 && p.closed);
}

static void note_clean(const struct trial *t, const struct outcome *o)
{
    unsigned number = kg_number(o->answer);
    meet(CLEAN_GAP_33, number == 18 && t->gap == 33);
    meet(CLEAN_GAP_HUGE, number == 18 && t->gap == ~(uint64_t)0);
    meet(CLEAN_LENGTH, number == 5 && t->lent[SUPPORT_STACK].len == stack_bytes_of(t));
    if (number == 0) note_cleaned(t, o);
}

/* ---- Kinds of posts ---- */

struct held {
    int new, down, stopped, held, above_alone, above_and_new, idle;
};

/* One layer, with the rings of its plan or without: how many pixels are left, are held though they are no posts, and are posts. */
static void look_at_held(const struct trial *t, const struct outcome *o, const uint16_t *rings, uint64_t plane, struct held *p)
{
    unsigned long left = 0, held = 0, new = 0, down = 0;
    for (uint64_t row = 0; row < t->h; row++)
        for (uint64_t column = 0; column < t->w; column++) {
            int here = pixel(o->after[POSTS_STACK], t->w, t->h, plane, row, column);
            int above = pixel(o->after[POSTS_STACK], t->w, t->h, plane + 1, row, column);
            int is_left = rings != NULL && shadow_at(t, plane, row, column) && rings[(plane * t->h + row) * t->w + column] == 0;
            left += is_left;
            held += is_left && !here;
            new += here && !above;
            down += here && above;
            p->stopped |= above && !here;
        }
    p->new |= new > 0;
    p->down |= down > 0;
    p->held |= held > 0;
    p->above_alone |= held > 0 && new == 0;
    p->above_and_new |= down > 0 && new > 0;
    p->idle |= rings != NULL && down > 0 && left == 0;
}

/* Whether whole pixels of radius would give other posts. */
static int is_between(const struct trial *t, const struct outcome *o)
{
    static uint8_t posts[PLANNED_AT];
    uint64_t bytes = stack_bytes_of(t);
    peer_posts(t->w, t->h, t->n, t->pitch, t->overhang, t->radius - t->radius % t->pitch, t->lent[PART_STACK].bytes, bytes, posts, bytes);
    return memcmp(posts, o->after[POSTS_STACK], bytes) != 0;
}

static void note_held(const struct trial *t, const struct outcome *o)
{
    static uint8_t support[PLANNED_AT];
    static uint16_t rings[PLANNED_AT];
    struct held p;
    int small = t->w * t->h * t->n <= PLANNED_AT;
    uint64_t bytes = stack_bytes_of(t);
    if (small) peer_plan(t->w, t->h, t->n, t->pitch, t->overhang, t->lent[PART_STACK].bytes, bytes, support, bytes, rings, ring_count_of(t));
    memset(&p, 0, sizeof p);
    for (uint64_t plane = 0; plane + 1 < t->n; plane++) look_at_held(t, o, small ? rings : NULL, plane, &p);
    meet(POSTS_BETWEEN, small && t->radius % t->pitch != 0 && is_between(t, o));
    meet(POSTS_BOUND_1088, t->radius * t->radius / (t->pitch * t->pitch) == 1088 && p.held);
    meet(POSTS_ONE_LAYER, t->n == 1);
    meet(POSTS_NOTHING, t->n > 1 && !p.new);
    meet(POSTS_NEW, p.new);
    meet(POSTS_HELD, p.held);
    meet(POSTS_DOWN, p.down);
    meet(POSTS_STOPPED, p.stopped);
    meet(POSTS_ABOVE_ALONE, p.above_alone);
    meet(POSTS_ABOVE_AND_NEW, p.above_and_new);
    meet(POSTS_IDLE, p.idle);
    meet(POSTS_WIDEST, t->w == 256 && p.new);
    meet(POSTS_HIGHEST, t->h == 256 && p.new);
    meet(POSTS_LAYERS, t->n == 512 && p.new);
}

static void note_radius(const struct trial *t)
{
    static const unsigned reaches[] = {0, 1, 2, 10, 31, 32};
    meet(POSTS_RADIUS_0, t->radius == 0);
    meet(POSTS_LONGEST, t->radius == 10000);
    for (int k = 0; k < 6; k++) meet((enum kind)(POSTS_REACH_0 + k), t->radius > 0 && t->radius / t->pitch == reaches[k]);
}

static void note_posts(const struct trial *t, const struct outcome *o)
{
    unsigned number = kg_number(o->answer);
    meet(POSTS_OVER, number == 20 && t->radius == 10001);
    meet(POSTS_REACH_33, number == 20 && t->radius == 33 * t->pitch);
    meet(POSTS_HUGE, number == 20 && t->radius == 0xFFFFFFFFu);
    if (number != 0) return;
    note_radius(t);
    if (t->w * t->h * t->n <= LOOKED_AT) note_held(t, o);
}

/* ---- Rows with padding ---- */

enum row_kind {
    ROW_FIRST, ROW_IN_LAYER_0, ROW_0_ABOVE, ROW_WITHIN, ROW_LAST, ROW_255, LAYER_OVER_255, ONE_LAYER, MORE_BEHIND,
    SUPPORT_BEFORE, SUPPORT_BEHIND,
    ROW_KINDS
};

static const char *const row_names[ROW_KINDS] = {
    "the first row", "a later row of layer 0", "row 0 of a later layer", "a later row of a later layer", "the last row of all", "row 255",
    "a layer over 255", "one layer", "more behind it", "support bad before it", "support bad behind it",
};

static unsigned long rows_met[CALLS][2][ROW_KINDS]; /* of 7 and of 8 */

static void note_row(const struct trial *t, uint64_t answer)
{
    unsigned number = kg_number(answer);
    uint64_t layer = kg_layer(answer), row = kg_row(answer), rows = t->n * t->h, at = layer * t->h + row, other;
    const uint8_t *part = looked_at(t, PART_STACK), *support = looked_at(t, SUPPORT_STACK);
    unsigned long *to = rows_met[t->call][number - 7];
    if (part == NULL) return;
    to[ROW_FIRST] += at == 0;
    to[ROW_IN_LAYER_0] += layer == 0 && row > 0;
    to[ROW_0_ABOVE] += layer > 0 && row == 0;
    to[ROW_WITHIN] += layer > 0 && row > 0;
    to[ROW_LAST] += at + 1 == rows && rows > 1;
    to[ROW_255] += row == 255;
    to[LAYER_OVER_255] += layer > 255;
    to[ONE_LAYER] += t->n == 1;
    to[MORE_BEHIND] += first_padding(number == 7 ? part : support, t->w, at + 1, rows) < rows;
    if (number == 8 || support == NULL) return;
    other = first_padding(support, t->w, 0, rows);
    to[SUPPORT_BEFORE] += other < at;
    to[SUPPORT_BEHIND] += other >= at && other < rows;
}

/* ---- Kinds of the other calls ---- */

/* What is told of a pixel above layer 0 if it is the first that is unheld: 11 or 19; 0 where it is held. */
static unsigned unheld_at(const struct trial *t, uint64_t layer, uint64_t row, uint64_t column)
{
    const uint8_t *support = t->lent[SUPPORT_STACK].bytes;
    if (part_at(t, layer - 1, row, column) || pixel(support, t->w, t->h, layer - 1, row, column)) return 0;
    if (ring_at(&t->lent[RING_PLANES], ((layer - 1) * t->h + row) * t->w + column) != 0) return 0;
    return part_at(t, layer, row, column) ? 11 : pixel(support, t->w, t->h, layer, row, column) ? 19 : 0;
}

/* Whether a layer has a pixel of which that number would be told. */
static int has_unheld(const struct trial *t, uint64_t layer, unsigned number)
{
    for (uint64_t row = 0; row < t->h; row++)
        for (uint64_t column = 0; column < t->w; column++)
            if (unheld_at(t, layer, row, column) == number) return 1;
    return 0;
}

static void note_unheld(const struct trial *t, uint64_t answer)
{
    unsigned number = kg_number(answer), other = number == 11 ? 19 : 11;
    int above = 0;
    if (t->w * t->h * t->n > LOOKED_AT) return;
    for (uint64_t layer = kg_layer(answer) + 1; layer < t->n && !above; layer++) above = has_unheld(t, layer, other);
    meet(number == 11 ? PART_THEN_SUPPORT : SUPPORT_THEN_PART, has_unheld(t, kg_layer(answer), other));
    meet(number == 11 ? PART_LAYERS_SUPPORT : SUPPORT_LAYERS_PART, above);
}

static void note_check(const struct trial *t, uint64_t answer)
{
    if (kg_number(answer) == 0) {
        meet(CHECK_AS_PLANNED, (t->marks & AS_PLANNED) != 0);
        meet(CHECK_MORE, (t->marks & MORE_SUPPORT) != 0);
        meet(CHECK_LARGER, (t->marks & LARGER_RINGS) != 0);
        meet(CHECK_FEWER, (t->marks & FEWER_RINGS) != 0);
        meet(CHECK_ONE_LAYER, t->n == 1);
    } else if (kg_number(answer) == 10) {
        uint64_t plane = kg_layer(answer) - 1;
        int shadow = shadow_at(t, plane, kg_row(answer), kg_column(answer));
        int near = near_at(t, t->overhang, plane, kg_row(answer), kg_column(answer));
        meet(BAD_NO_SHADOW, !shadow);
        meet(BAD_NOT_NEAR, shadow && !near);
        meet(BAD_NO_NEIGHBOUR, shadow && near);
    } else if (kg_number(answer) == 11 || kg_number(answer) == 19) {
        note_unheld(t, answer);
    }
}

static void note_read(const struct trial *t)
{
    uint64_t support_count = t->lent[SUPPORT_STACK].len;
    meet(READ_STORED, support_count != 0);
    meet(READ_NONE, support_count == 0);
    meet(READ_ONE_LAYER, t->n == 1 && support_count != 0);
    meet(READ_SHORT, t->lent[TOLD].len < KG_TOLD);
}

static void note_write(const struct trial *t, uint64_t answer)
{
    meet(WRITE_STORED, t->lent[SUPPORT_STACK].len != 0);
    meet(WRITE_NONE, t->lent[SUPPORT_STACK].len == 0);
    meet(WRITE_EXACT, kg_value(answer) == t->lent[OUT].len);
    meet(WRITE_LONGER, kg_value(answer) < t->lent[OUT].len);
}

static void note_reach(uint64_t answer)
{
    meet(REACH_0, kg_value(answer) == 0);
    meet(REACH_MIDDLE, kg_value(answer) > 0 && kg_value(answer) < 32);
    meet(REACH_32, kg_value(answer) == 32);
}

static void note_buffers(const struct trial *t)
{
    for (int which = 0; which < LENTS; which++) {
        if (!uses(t->call, which)) continue;
        meet(NULL_BUFFER, t->null_for_empty && t->lent[which].len == 0);
        meet(LONG_BUFFER, is_long(&t->lent[which], which));
    }
    meet(LARGEST_SIZE, t->w == 256 && t->h == 256 && t->n == 512);
}

void note(const struct trial *t, const struct outcome *o)
{
    unsigned number = kg_number(o->answer);
    compared[t->call]++;
    note_buffers(t);
    if (t->call == PART || t->call == SUPPORT) {
        meet(t->call == PART ? PART_HANDED : SUPPORT_HANDED, o->answer != 0);
        meet(t->call == PART ? PART_EMPTY : SUPPORT_EMPTY, o->answer == 0);
        return;
    }
    met[t->call][number]++;
    if (number == 7 || number == 8) note_row(t, o->answer);
    if (t->call == CLEAN) note_clean(t, o);
    if (t->call == POSTS) note_posts(t, o);
    if (t->call == CHECK) note_check(t, o->answer);
    if (number != 0) return;
    if (t->call == REACH) note_reach(o->answer);
    if (t->call == PLAN) note_plan(t, o);
    if (t->call == READ) note_read(t);
    if (t->call == COPY_RINGS) meet(t->lent[RING_PLANES].len > 0 ? COPY_SOME : COPY_NONE, 1);
    if (t->call == WRITE) note_write(t, o->answer);
}

static int can_be(enum call call, unsigned number)
{
    char word[16];
    char all[64];
    snprintf(word, sizeof word, " %u ", number);
    snprintf(all, sizeof all, " %s", can_give[call]);
    return strstr(all, word) != NULL;
}

static int print_numbers(FILE *to)
{
    int missing = 0;
    for (int call = 0; call < CALLS; call++) {
        if (call == PART || call == SUPPORT) continue;
        fprintf(to, "met by %s:", call_names[call]);
        for (unsigned number = 0; number < NUMBERS; number++) {
            if (!can_be((enum call)call, number) && met[call][number] == 0) continue;
            fprintf(to, " %s%u x %lu", number == 0 ? "accepted " : "", number, met[call][number]);
            missing += met[call][number] == 0;
        }
        fprintf(to, "\n");
    }
    return missing;
}

/* Support is bad too, beside the part's row, only in calls that look at both. */
static int can_be_row(enum call call, unsigned number, enum row_kind kind)
{
    return can_be(call, number) && (kind < SUPPORT_BEFORE || (number == 7 && can_be(call, 8)));
}

static int print_rows(FILE *to)
{
    int missing = 0;
    for (int call = 0; call < CALLS; call++)
        for (unsigned number = 7; number <= 8; number++) {
            if (!can_be((enum call)call, number)) continue;
            fprintf(to, "met by %s, %u:", call_names[call], number);
            for (int kind = 0; kind < ROW_KINDS; kind++) {
                if (!can_be_row((enum call)call, number, (enum row_kind)kind)) continue;
                fprintf(to, "%s %s x %lu", kind == 0 ? "" : ",", row_names[kind], rows_met[call][number - 7][kind]);
                missing += rows_met[call][number - 7][kind] == 0;
            }
            fprintf(to, "\n");
        }
    return missing;
}

static int print_kinds(FILE *to)
{
    int missing = 0;
    for (int kind = 0; kind < KINDS; kind++) {
        fprintf(to, "met %s: %lu\n", kind_names[kind], kinds[kind]);
        missing += kinds[kind] == 0 && (kind != LONG_BUFFER || lend_long());
    }
    if (!lend_long()) fprintf(to, "buffers of 2^32 elements and more cannot be lent here\n");
    return missing;
}

int print_met(FILE *to)
{
    int missing = print_numbers(to);
    missing += print_rows(to);
    return missing + print_kinds(to);
}
