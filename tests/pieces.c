/* The bench pieces and limits with the answers that are written down for them, asked of the library and of the peer. */
#include "trial.h"

#include "peer.h"

#include <stdio.h>
#include <stdlib.h>
#include <string.h>

enum { MOST = 25 };

/* Pitch is 100. Answers: support and rings where the call is PLAN; the answer's number and place where it is CHECK. */
struct piece {
    const char *name;
    enum call call;
    uint64_t w, h, n;
    uint32_t overhang;
    uint8_t part[MOST], support[MOST];
    uint16_t rings[MOST];
    unsigned number, layer, row, column;
};

#define RINGS_OF_B {0, 0, 0, 1, 2, 0, 0, 0}
#define RINGS_OF_F {0, 0, 0, 0, 0, 0, 0, 0, 0, 0, 0, 1, 2, 0, 0, 0}

static const struct piece pieces[] = {
    {"a", PLAN, 8, 1, 1, 200, {0xFF}, {0}, {0}, 0, 0, 0, 0},
    {"b", PLAN, 8, 1, 2, 200, {0xE0, 0xFF}, {0x07}, RINGS_OF_B, 0, 0, 0, 0},
    {"c", PLAN, 8, 1, 2, 200, {0xE0, 0x1F}, {0x1F}, {0}, 0, 0, 0, 0},
    {"d", PLAN, 8, 1, 2, 300, {0xE0, 0xF7}, {0x07}, {0, 0, 0, 1}, 0, 0, 0, 0},
    {"e", PLAN, 8, 1, 2, 99, {0xE0, 0xFF}, {0x1F}, {0}, 0, 0, 0, 0},
    {"f", PLAN, 8, 1, 3, 200, {0x00, 0xE0, 0xFF}, {0xE7, 0x07}, RINGS_OF_F, 0, 0, 0, 0},
    {"g", PLAN, 8, 1, 3, 200, {0x01, 0xE0, 0xFF}, {0xE6, 0x07}, RINGS_OF_F, 0, 0, 0, 0},
    {"h", PLAN, 2, 2, 2, 100, {0x80, 0x00, 0xC0, 0xC0}, {0x00, 0x40}, {0, 1, 1, 0}, 0, 0, 0, 0},
    {"h at t 150", PLAN, 2, 2, 2, 150, {0x80, 0x00, 0xC0, 0xC0}, {0x00, 0x00}, {0, 1, 1, 1}, 0, 0, 0, 0},
    {"h at t 141", PLAN, 2, 2, 2, 141, {0x80, 0x00, 0xC0, 0xC0}, {0x00, 0x40}, {0, 1, 1, 0}, 0, 0, 0, 0},
    {"h at t 142", PLAN, 2, 2, 2, 142, {0x80, 0x00, 0xC0, 0xC0}, {0x00, 0x00}, {0, 1, 1, 1}, 0, 0, 0, 0},
    {"h at t 150, checked at t 141", CHECK, 2, 2, 2, 141, {0x80, 0x00, 0xC0, 0xC0}, {0x00, 0x00}, {0, 1, 1, 1}, 10, 1, 1, 1},
    {"i, all zero", PLAN, 8, 1, 3, 200, {0}, {0}, {0}, 0, 0, 0, 0},
    {"i, equal layers", PLAN, 8, 1, 3, 200, {0xA7, 0xA7, 0xA7}, {0}, {0}, 0, 0, 0, 0},
    {"j", CHECK, 8, 1, 2, 200, {0xE0, 0xFF}, {0x0F, 0x00}, RINGS_OF_B, 0, 0, 0, 0},
    {"k", CHECK, 8, 1, 2, 200, {0xE0, 0xFF}, {0x07, 0x00}, {0, 0, 0, 1, 1}, 10, 1, 0, 4},
    {"l", CHECK, 8, 1, 2, 200, {0xE0, 0xFF}, {0x03, 0x00}, RINGS_OF_B, 11, 1, 0, 5},
    {"m", CHECK, 8, 1, 2, 200, {0xE0, 0xFF}, {0x27, 0x00}, RINGS_OF_B, 9, 0, 0, 2},
    {"a seed with a ring serves no ring 1", CHECK, 8, 1, 2, 200, {0x07, 0xFF}, {0xE0, 0x00}, {0, 0, 0, 0, 1, 9}, 10, 1, 0, 4},
    {"two rings lean on each other", CHECK, 8, 1, 2, 300, {0xE0, 0xF7}, {0x00}, {0, 0, 0, 1, 0, 1, 2}, 10, 1, 0, 5},
    {"support over nothing", CHECK, 8, 1, 2, 200, {0xE0, 0xF0}, {0x00, 0x01}, {0, 0, 0, 1}, 19, 1, 0, 7},
    {"support over part, and over support", CHECK, 8, 1, 3, 200, {0xE0, 0xE0, 0x00}, {0x01, 0x01, 0x81}, {0}, 0, 0, 0, 0},
    {"support of one layer", CHECK, 8, 1, 1, 200, {0x00}, {0xFF}, {0}, 0, 0, 0, 0},
    {"in a row, support hangs first", CHECK, 8, 1, 2, 200, {0xE0, 0xF1}, {0x00, 0x04}, {0, 0, 0, 1}, 19, 1, 0, 5},
    {"in a row, part hangs first", CHECK, 8, 1, 2, 200, {0xE0, 0xF4}, {0x00, 0x01}, {0, 0, 0, 1}, 11, 1, 0, 5},
    {"in an earlier row, support hangs", CHECK, 8, 2, 2, 0, {0xE0, 0xE0, 0xE0, 0xF0}, {0x00, 0x00, 0x01, 0x00}, {0}, 19, 1, 0, 7},
    {"in an earlier row, part hangs", CHECK, 8, 2, 2, 0, {0xE0, 0xE0, 0xE1, 0xE0}, {0x00, 0x00, 0x00, 0x10}, {0}, 11, 1, 0, 7},
    {"in a lower layer, support hangs", CHECK, 8, 1, 3, 0, {0xE0, 0xE0, 0xF0}, {0x00, 0x02, 0x00}, {0}, 19, 1, 0, 6},
    {"in a lower layer, part hangs", CHECK, 8, 1, 3, 0, {0xE0, 0xE1, 0xE1}, {0x00, 0x00, 0x10}, {0}, 11, 1, 0, 7},
    {"a bad ring above support that hangs", CHECK, 8, 1, 3, 200, {0xE0, 0xE0, 0xE0}, {0x00, 0x01, 0x00},
     {0, 0, 0, 0, 0, 0, 0, 0, 0, 0, 0, 0, 1}, 10, 2, 0, 4},
    {"an overlap above support that hangs", CHECK, 8, 1, 3, 200, {0xE0, 0xE0, 0xE0}, {0x00, 0x01, 0x80}, {0}, 9, 2, 0, 0},
};

/* Cleaning: part and support as they are planned with pitch 100, and the cleaned support. */
struct clean_piece {
    const char *name;
    uint64_t w, h, n;
    uint32_t overhang;
    uint64_t gap;
    uint8_t part[MOST], support[MOST];
    uint16_t rings[MOST];
    uint8_t cleaned[MOST];
};

static const struct clean_piece clean_pieces[] = {
    {"one layer", 8, 1, 1, 200, 2, {0xDB}, {0}, {0}, {0}},
    {"b, gap 2", 8, 1, 2, 200, 2, {0xE0, 0xFF}, {0x07}, RINGS_OF_B, {0x07}},
    {"two pixels apart, gap 0", 8, 1, 2, 200, 0, {0x00, 0xE7}, {0xE7}, {0}, {0xE7}},
    {"two pixels apart, gap 1", 8, 1, 2, 200, 1, {0x00, 0xE7}, {0xE7}, {0}, {0xFF}},
    {"three pixels apart, gap 1", 8, 1, 2, 200, 1, {0x00, 0xC7}, {0xC7}, {0}, {0xC7}},
    {"three pixels apart, gap 2", 8, 1, 2, 200, 2, {0x00, 0xC7}, {0xC7}, {0}, {0xFF}},
    {"one pixel off the edge, gap 1", 8, 1, 2, 200, 1, {0x00, 0x02}, {0x02}, {0}, {0x03}},
    {"two pixels off the edge, gap 1", 8, 1, 2, 200, 1, {0x00, 0x04}, {0x04}, {0}, {0x04}},
    {"about a post and its rings", 8, 1, 2, 100, 2, {0x10, 0xFF}, {0xC7}, {0, 0, 1, 0, 1}, {0xC7}},
    {"closed above, stopped by part", 8, 1, 3, 200, 1, {0x18, 0x00, 0xE7}, {0xE7, 0xE7}, {0}, {0xE7, 0xFF}},
    {"closed above, carried down alone", 8, 1, 3, 200, 1, {0xE7, 0x00, 0xE7}, {0x00, 0xE7}, {0}, {0x18, 0xFF}},
    {"a hole of one pixel, gap 1", 3, 3, 2, 0, 1, {0, 0, 0, 0xE0, 0xA0, 0xE0}, {0xE0, 0xA0, 0xE0}, {0}, {0xE0, 0xE0, 0xE0}},
    {"a hole as the disc of 1, gap 1", 5, 5, 2, 0, 1, {0, 0, 0, 0, 0, 0xF8, 0xD8, 0x88, 0xD8, 0xF8}, {0xF8, 0xD8, 0x88, 0xD8, 0xF8}, {0},
     {0xF8, 0xD8, 0x88, 0xD8, 0xF8}},
    {"a hole as the disc of 1, gap 2", 5, 5, 2, 0, 2, {0, 0, 0, 0, 0, 0xF8, 0xD8, 0x88, 0xD8, 0xF8}, {0xF8, 0xD8, 0x88, 0xD8, 0xF8}, {0},
     {0xF8, 0xF8, 0xF8, 0xF8, 0xF8}},
    {"a corner beside the disc of 1", 2, 2, 2, 0, 1, {0x00, 0x00, 0x80, 0x40}, {0x80, 0x40}, {0}, {0xC0, 0xC0}},
};

/* Posts: part, and its posts with pitch 100. */
struct posts_piece {
    const char *name;
    uint64_t w, h, n;
    uint32_t overhang, radius;
    uint8_t part[MOST], posts[MOST];
};

static const struct posts_piece posts_pieces[] = {
    {"one layer", 8, 1, 1, 200, 200, {0xFF}, {0}},
    {"b, radius 0", 8, 1, 2, 200, 0, {0xE0, 0xFF}, {0x07}},
    {"b, radius 99", 8, 1, 2, 200, 99, {0xE0, 0xFF}, {0x07}},
    {"b, radius 100", 8, 1, 2, 200, 100, {0xE0, 0xFF}, {0x05}},
    {"b, radius 200", 8, 1, 2, 200, 200, {0xE0, 0xFF}, {0x04}},
    {"c, radius 100", 8, 1, 2, 200, 100, {0xE0, 0x1F}, {0x15}},
    {"f, near a post from above but not joined", 8, 1, 3, 200, 300, {0x00, 0xE0, 0xFF}, {0x84, 0x04}},
    {"a post from above meets part", 8, 1, 3, 200, 200, {0x04, 0xE0, 0xFF}, {0x80, 0x04}},
    {"a post from above holds what touches it", 8, 1, 3, 0, 200, {0x00, 0x30, 0x40}, {0x40, 0x40}},
    {"a post from above holds a part of what is left", 8, 1, 3, 0, 100, {0x00, 0x3C, 0x40}, {0x54, 0x40}},
    {"a post from above that holds nothing", 8, 1, 3, 0, 200, {0x00, 0x00, 0x80}, {0x80, 0x80}},
    {"posts from above grow together", 8, 1, 3, 0, 200, {0x00, 0x70, 0x84}, {0x84, 0x84}},
    {"new posts grow each by itself", 4, 3, 2, 0, 224, {0, 0, 0, 0xE0, 0x10, 0xE0}, {0x80, 0x10, 0x80}},
    {"not through pixels that are taken away", 4, 3, 2, 0, 200, {0, 0, 0, 0x20, 0x20, 0x70}, {0x20, 0x00, 0x50}},
    {"not through excused pixels", 8, 2, 2, 150, 1000, {0x10, 0x00, 0x10, 0xFF}, {0x00, 0x84}},
    {"rows before columns", 2, 2, 2, 0, 150, {0, 0, 0x40, 0x80}, {0x40, 0x00}},
    {"a corner, radius 141", 2, 2, 2, 0, 141, {0, 0, 0x80, 0x40}, {0x80, 0x40}},
    {"a corner, radius 142", 2, 2, 2, 0, 142, {0, 0, 0x80, 0x40}, {0x80, 0x00}},
    {"a table of 5 by 5, radius 200", 5, 5, 2, 0, 200, {0, 0, 0, 0, 0, 0xF8, 0xF8, 0xF8, 0xF8, 0xF8}, {0x90, 0x00, 0x48, 0x00, 0xA0}},
};

/* Stacks with padding set, and the refusal of the calls that look at both. */
struct padded {
    const char *name;
    uint64_t w, h, n;
    uint8_t part[MOST], support[MOST];
    unsigned number, layer, row;
};

static const struct padded padded[] = {
    {"7 in the first row", 5, 2, 3, {0xF9, 0xF8, 0xF8, 0xF8, 0xF8, 0xF8}, {0}, 7, 0, 0},
    {"7 in the second row", 5, 2, 3, {0xF8, 0xFC, 0xF8, 0xF8, 0xF8, 0xF8}, {0}, 7, 0, 1},
    {"7 in layer 1", 5, 2, 3, {0xF8, 0xF8, 0xFA, 0xF8, 0xF8, 0xF8}, {0}, 7, 1, 0},
    {"7 in the last row", 5, 2, 3, {0x00, 0x00, 0x00, 0x00, 0x00, 0x01}, {0}, 7, 2, 1},
    {"7 in three rows", 5, 2, 3, {0xF8, 0xF8, 0xF8, 0xFF, 0xF9, 0xFA}, {0}, 7, 1, 1},
    {"7 in a later row of layer 0, and in row 0 above", 5, 2, 3, {0x00, 0x01, 0x07, 0x00, 0x00, 0x00}, {0}, 7, 0, 1},
    {"8 in the first row", 5, 2, 3, {0}, {0x01}, 8, 0, 0},
    {"8 in layer 2", 5, 2, 3, {0xF8, 0xF8, 0xF8, 0xF8, 0xF8, 0xF8}, {0x00, 0x00, 0x00, 0x00, 0x04, 0x00}, 8, 2, 0},
    {"8 in three rows", 5, 2, 3, {0}, {0x00, 0x00, 0x00, 0x06, 0x01, 0x07}, 8, 1, 1},
    {"both, the support's row before the part's", 5, 2, 3, {0x00, 0x00, 0x00, 0x01, 0x00, 0x01}, {0x00, 0x01}, 7, 1, 1},
    {"both, the part's row before the support's", 5, 2, 3, {0x00, 0x00, 0x02}, {0x00, 0x00, 0x00, 0x00, 0x00, 0x02}, 7, 1, 0},
    {"both, in the same row", 5, 2, 3, {0x00, 0x00, 0x00, 0x00, 0x04}, {0x00, 0x00, 0x00, 0x00, 0x01}, 7, 2, 0},
    {"one row of seven pixels", 7, 1, 1, {0xFF}, {0}, 7, 0, 0},
    {"one pixel, four layers", 1, 1, 4, {0x80, 0x80, 0x80, 0xC0}, {0}, 7, 3, 0},
    {"one layer of four rows", 1, 4, 1, {0x00, 0x80, 0x00, 0x00}, {0x00, 0x00, 0x40, 0x40}, 8, 0, 2},
    {"rows of nine pixels", 9, 1, 3, {0xFF, 0x80, 0xFF, 0x80, 0xFF, 0xC0}, {0}, 7, 2, 0},
    {"rows of nine pixels, the last bit", 9, 2, 1, {0}, {0x00, 0x00, 0x00, 0x01}, 8, 0, 1},
    {"rows of fifteen pixels", 15, 1, 2, {0xFF, 0xFE, 0xFF, 0xFF}, {0xFF, 0xFF, 0xFF, 0xFF}, 7, 1, 0},
};

struct reach {
    uint32_t pitch, overhang;
    unsigned number, reach;
};

static const struct reach reaches[] = {
    {101, 510, 0, 5}, {135, 3810, 0, 28}, {50, 1649, 0, 32}, {50, 1650, 3, 0}, {100, 0, 0, 0}, {100, 99, 0, 0}, {100, 100, 0, 1},
    {9, 10000, 2, 0}, {0, 0, 2, 0}, {10, 10000, 3, 0}, {10, 329, 0, 32}, {10, 330, 3, 0}, {1000, 10000, 0, 10}, {1000, 10001, 2, 0},
    {1001, 0, 2, 0},
};

static const uint8_t example_file[28] = {0, 0, 0, 5, 0, 8, 0, 1, 0, 2, 0, 0x64, 0, 0xC8, 0, 0, 0, 2, 0xE0, 0xFF};
static const char example_report[] = "job 8 1 2 reach 2\n1 8 0 0\n0 3 3 2\n";

static int failures, endless;

static void expect(int right, const char *who, const char *what)
{
    if (right || endless) return;
    failures++;
    printf("pieces: %s: %s is not the answer written down\n", who, what);
}

typedef void side(const struct trial *, struct outcome *);

/* Calls one side, and after a call that did not end nothing more. */
static void ask(side *of, const struct trial *t, struct outcome *o)
{
    memset(o, 0, sizeof *o);
    if (endless) return;
    of(t, o);
    if (o->signal != ENDLESS_SIGNAL) return;
    endless = 1;
    failures++;
    printf("pieces: %s did not end\n", call_names[t->call]);
}

static void free_outcome_of(side *of, struct outcome *o)
{
    if (of == call_peer) outcome_free(o);
}

/* ---- Pieces ---- */

static void lend_piece(struct trial *t, const struct piece *p)
{
    memset(t, 0, sizeof *t);
    t->call = p->call;
    t->w = p->w;
    t->h = p->h;
    t->n = p->n;
    t->pitch = 100;
    t->overhang = p->overhang;
    buffer_put(t, PART_STACK, p->part, stack_bytes_of(t));
    buffer_put(t, SUPPORT_STACK, p->support, stack_bytes_of(t));
    buffer_put(t, RING_PLANES, p->rings, ring_count_of(t));
    if (p->call == PLAN) {
        memset(t->lent[SUPPORT_STACK].bytes, 0xFF, t->lent[SUPPORT_STACK].held);
        memset(t->lent[RING_PLANES].bytes, 0xFF, t->lent[RING_PLANES].held);
    }
}

static int holds(const struct trial *t, const struct outcome *o, enum lent which, const void *bytes)
{
    uint64_t held = t->lent[which].held;
    return held == 0 || (o->after[which] != NULL && memcmp(o->after[which], bytes, held) == 0);
}

static void try_piece(const struct piece *p, side *of, const char *who)
{
    struct trial t;
    struct outcome o;
    lend_piece(&t, p);
    ask(of, &t, &o);
    expect(o.signal == 0 && kg_number(o.answer) == p->number && kg_layer(o.answer) == p->layer && kg_row(o.answer) == p->row
               && kg_column(o.answer) == p->column,
           who, p->name);
    expect(holds(&t, &o, SUPPORT_STACK, p->support), who, p->name);
    expect(holds(&t, &o, RING_PLANES, p->rings), who, p->name);
    free_outcome_of(of, &o);
    trial_free(&t);
}

static void try_clean_piece(const struct clean_piece *p, side *of, const char *who)
{
    struct trial t;
    struct outcome o;
    memset(&t, 0, sizeof t);
    t.call = CLEAN;
    t.w = p->w;
    t.h = p->h;
    t.n = p->n;
    t.pitch = 100;
    t.overhang = p->overhang;
    t.gap = p->gap;
    buffer_put(&t, PART_STACK, p->part, stack_bytes_of(&t));
    buffer_make(&t, SUPPORT_STACK, stack_bytes_of(&t));
    buffer_make(&t, RING_PLANES, ring_count_of(&t));
    buffer_make(&t, CLEANED_STACK, stack_bytes_of(&t));
    memset(t.lent[SUPPORT_STACK].bytes, 0xFF, t.lent[SUPPORT_STACK].held);
    memset(t.lent[CLEANED_STACK].bytes, 0xFF, t.lent[CLEANED_STACK].held);
    ask(of, &t, &o);
    expect(o.signal == 0 && o.answer == 0 && holds(&t, &o, SUPPORT_STACK, p->support) && holds(&t, &o, RING_PLANES, p->rings)
               && holds(&t, &o, CLEANED_STACK, p->cleaned),
           who, p->name);
    free_outcome_of(of, &o);
    trial_free(&t);
}

static void try_posts_piece(const struct posts_piece *p, side *of, const char *who)
{
    struct trial t;
    struct outcome o;
    char what[80];
    memset(&t, 0, sizeof t);
    t.call = POSTS;
    t.w = p->w;
    t.h = p->h;
    t.n = p->n;
    t.pitch = 100;
    t.overhang = p->overhang;
    t.radius = p->radius;
    buffer_put(&t, PART_STACK, p->part, stack_bytes_of(&t));
    buffer_make(&t, POSTS_STACK, stack_bytes_of(&t));
    memset(t.lent[POSTS_STACK].bytes, 0xFF, t.lent[POSTS_STACK].held);
    ask(of, &t, &o);
    snprintf(what, sizeof what, "posts, %s", p->name);
    expect(o.signal == 0 && o.answer == 0 && holds(&t, &o, POSTS_STACK, p->posts), who, what);
    free_outcome_of(of, &o);
    trial_free(&t);
}

/* A refusal at a row. */
static uint64_t at_row(unsigned number, unsigned layer, unsigned row) { return number | (uint64_t)layer << 16 | (uint64_t)row << 32; }

/* The job of such stacks, with rings of 0; its counts are below 256. */
static uint64_t put_job(const struct trial *t, const struct padded *p, uint8_t *file)
{
    uint64_t bytes = stack_bytes_of(t), rows = t->n * t->h;
    uint8_t head[18] = {0, 0, 0, 5, 0, 0, 0, 0, 0, 0, 0, 100, 0, 200, 0, 0, 0, 0};
    head[5] = (uint8_t)t->w;
    head[7] = (uint8_t)t->h;
    head[9] = (uint8_t)t->n;
    head[17] = (uint8_t)rows;
    memset(file, 0, job_bytes_of(t, 1));
    memcpy(file, head, sizeof head);
    memcpy(file + 18, p->part, bytes);
    file[18 + bytes + 3] = (uint8_t)rows;
    memcpy(file + 22 + bytes, p->support, bytes);
    file[22 + 2 * bytes + 3] = (uint8_t)ring_count_of(t);
    return job_bytes_of(t, 1);
}

static void lend_padded(struct trial *t, const struct padded *p, enum call call)
{
    uint8_t file[512];
    memset(t, 0, sizeof *t);
    t->call = call;
    t->w = p->w;
    t->h = p->h;
    t->n = p->n;
    t->pitch = 100;
    t->overhang = 200;
    buffer_put(t, PART_STACK, p->part, stack_bytes_of(t));
    buffer_put(t, SUPPORT_STACK, p->support, stack_bytes_of(t));
    buffer_make(t, RING_PLANES, ring_count_of(t));
    buffer_make(t, CLEANED_STACK, stack_bytes_of(t));
    buffer_make(t, POSTS_STACK, stack_bytes_of(t));
    buffer_put(t, JOB_FILE, file, put_job(t, p, file));
    buffer_make(t, TOLD, KG_TOLD);
    buffer_make(t, OUT, job_bytes_of(t, 1));
}

/* Asks every call that is lent such stacks or their job. Planning, cleaning and posts do not look at support; part and support give no
 * number. */
static void try_padded(const struct padded *p, side *of, const char *who)
{
    static const enum call calls[] = {PLAN, CLEAN, POSTS, CHECK, READ, PART, SUPPORT, COPY_RINGS, WRITE};
    for (size_t k = 0; k < sizeof calls / sizeof *calls; k++) {
        struct trial t;
        struct outcome o;
        char what[120];
        int planned = calls[k] == PLAN || calls[k] == CLEAN || calls[k] == POSTS, handed = calls[k] == PART || calls[k] == SUPPORT;
        uint64_t answer = handed || (planned && p->number == 8) ? 0 : at_row(p->number, p->layer, p->row);
        lend_padded(&t, p, calls[k]);
        ask(of, &t, &o);
        snprintf(what, sizeof what, "%s, %s", call_names[calls[k]], p->name);
        expect(o.signal == 0 && o.answer == answer, who, what);
        free_outcome_of(of, &o);
        trial_free(&t);
    }
}

/* ---- Limits ---- */

static void try_reaches(side *of, const char *who)
{
    for (size_t k = 0; k < sizeof reaches / sizeof *reaches; k++) {
        struct trial t;
        struct outcome o;
        char what[64];
        memset(&t, 0, sizeof t);
        t.call = REACH;
        t.pitch = reaches[k].pitch;
        t.overhang = reaches[k].overhang;
        ask(of, &t, &o);
        snprintf(what, sizeof what, "reach of p %u, t %u", (unsigned)t.pitch, (unsigned)t.overhang);
        expect(o.signal == 0 && o.answer == (reaches[k].number | (uint64_t)reaches[k].reach << 16), who, what);
        free_outcome_of(of, &o);
    }
}

/* A full layer over the first pixel of 33 rows of 9: every other pixel gets as a ring how many rows or columns it is away, whichever is more,
 * and the last is at the squared distance 32 * 32 + 8 * 8 = 1,088. */
static void try_bound(uint32_t pitch, uint32_t overhang, int last, side *of, const char *who)
{
    enum { W = 9, H = 33 };
    struct trial t;
    struct outcome o;
    uint8_t support[2 * H * 2] = {0};
    uint16_t rings[W * H];
    char what[64];
    memset(&t, 0, sizeof t);
    t.call = PLAN;
    t.w = W;
    t.h = H;
    t.n = 2;
    t.pitch = pitch;
    t.overhang = overhang;
    buffer_make(&t, PART_STACK, sizeof support);
    buffer_make(&t, SUPPORT_STACK, sizeof support);
    buffer_make(&t, RING_PLANES, W * H);
    t.lent[PART_STACK].bytes[0] = 0x80;
    for (size_t row = 0; row < H; row++) {
        memcpy(t.lent[PART_STACK].bytes + 2 * (H + row), "\xFF\x80", 2);
        for (size_t column = 0; column < W; column++) rings[row * W + column] = (uint16_t)(row > column ? row : column);
    }
    if (!last) {
        support[2 * H - 1] = 0x80;
        rings[W * H - 1] = 0;
    }
    ask(of, &t, &o);
    snprintf(what, sizeof what, "the disc of p %u, t %u", (unsigned)pitch, (unsigned)overhang);
    expect(o.signal == 0 && o.answer == 0 && holds(&t, &o, SUPPORT_STACK, support) && holds(&t, &o, RING_PLANES, rings), who, what);
    free_outcome_of(of, &o);
    trial_free(&t);
}

static void try_bounds(side *of, const char *who)
{
    try_bound(66, 2177, 1, of, who); /* 2,177 * 2,177 is one more than 1,088 * 66 * 66 */
    try_bound(66, 2176, 0, of, who);
    try_bound(303, 9998, 1, of, who);
    try_bound(65, 2144, 0, of, who); /* the longest overhang at pitch 65 */
}

/* An empty part of the given size is planned, or refused. */
static void try_size(uint64_t w, uint64_t h, uint64_t n, unsigned number, side *of, const char *who)
{
    struct trial t;
    struct outcome o;
    char what[64];
    memset(&t, 0, sizeof t);
    t.call = PLAN;
    t.w = w;
    t.h = h;
    t.n = n;
    t.pitch = 100;
    buffer_make(&t, PART_STACK, n * h * row_bytes_of(w));
    buffer_make(&t, SUPPORT_STACK, n * h * row_bytes_of(w));
    buffer_make(&t, RING_PLANES, n == 0 ? 0 : (n - 1) * w * h);
    ask(of, &t, &o);
    snprintf(what, sizeof what, "size %u %u %u", (unsigned)w, (unsigned)h, (unsigned)n);
    expect(o.signal == 0 && o.answer == number, who, what);
    free_outcome_of(of, &o);
    trial_free(&t);
}

static void try_sizes(side *of, const char *who)
{
    try_size(256, 1, 2, 0, of, who);
    try_size(257, 1, 2, 1, of, who);
    try_size(1, 256, 2, 0, of, who);
    try_size(1, 257, 2, 1, of, who);
    try_size(1, 1, 512, 0, of, who);
    try_size(1, 1, 513, 1, of, who);
    try_size(0, 1, 1, 1, of, who);
    try_size(1, 0, 1, 1, of, who);
    try_size(1, 1, 0, 1, of, who);
}

/* Cleaning two layers of one row of seven pixels, the rings and stacks so much longer, is done or refused. */
static void try_cleaning(uint32_t overhang, uint64_t gap, const unsigned longer[CLEANED_STACK + 1], uint8_t part, uint64_t answer,
                         side *of, const char *who)
{
    struct trial t;
    struct outcome o;
    char what[80];
    memset(&t, 0, sizeof t);
    t.call = CLEAN;
    t.w = 7;
    t.h = 1;
    t.n = 2;
    t.pitch = 100;
    t.overhang = overhang;
    t.gap = gap;
    for (int which = PART_STACK; which <= CLEANED_STACK; which++)
        buffer_make(&t, (enum lent)which, (which == RING_PLANES ? ring_count_of(&t) : stack_bytes_of(&t)) + longer[which]);
    t.lent[PART_STACK].bytes[1] = part;
    ask(of, &t, &o);
    snprintf(what, sizeof what, "cleaning with gap %llu and refusal %u", (unsigned long long)gap, kg_number(answer));
    expect(o.signal == 0 && o.answer == answer, who, what);
    free_outcome_of(of, &o);
    trial_free(&t);
}

static void try_cleanings(side *of, const char *who)
{
    static const unsigned right[4] = {0, 0, 0, 0}, all[4] = {1, 1, 1, 1}, not_part[4] = {0, 1, 1, 1}, cleaned[4] = {0, 0, 1, 1};
    static const unsigned cleaned_alone[4] = {0, 0, 0, 1}, rings[4] = {0, 0, 1, 0};
    try_cleaning(200, 32, right, 0x02, 0, of, who);
    try_cleaning(200, 33, right, 0x02, 18, of, who);
    try_cleaning(200, 256, right, 0x02, 18, of, who);
    try_cleaning(200, (uint64_t)1 << 32, right, 0x02, 18, of, who);
    try_cleaning(200, ~(uint64_t)0, right, 0x02, 18, of, who);
    try_cleaning(3300, 33, all, 0x01, 3, of, who);
    try_cleaning(200, 33, all, 0x01, 18, of, who);
    try_cleaning(200, 32, all, 0x01, 4, of, who);
    try_cleaning(200, 32, not_part, 0x01, 5, of, who);
    try_cleaning(200, 32, cleaned, 0x01, 5, of, who);
    try_cleaning(200, 32, cleaned_alone, 0x02, 5, of, who);
    try_cleaning(200, 32, rings, 0x01, 6, of, who);
    try_cleaning(200, 32, right, 0x01, at_row(7, 1, 0), of, who);
}

/* A full layer of 33 rows of 9 over nothing: the post at its first pixel takes all away, or all but the last, at the squared distance 1,088. */
static void try_post_bound(uint32_t pitch, uint32_t radius, int last, side *of, const char *who)
{
    enum { W = 9, H = 33 };
    struct trial t;
    struct outcome o;
    uint8_t posts[2 * H * 2] = {0x80};
    char what[64];
    memset(&t, 0, sizeof t);
    t.call = POSTS;
    t.w = W;
    t.h = H;
    t.n = 2;
    t.pitch = pitch;
    t.radius = radius;
    buffer_make(&t, PART_STACK, sizeof posts);
    buffer_make(&t, POSTS_STACK, sizeof posts);
    for (size_t row = 0; row < H; row++) memcpy(t.lent[PART_STACK].bytes + 2 * (H + row), "\xFF\x80", 2);
    if (!last) posts[2 * H - 1] = 0x80;
    ask(of, &t, &o);
    snprintf(what, sizeof what, "posts by p %u, radius %u", (unsigned)pitch, (unsigned)radius);
    expect(o.signal == 0 && o.answer == 0 && holds(&t, &o, POSTS_STACK, posts), who, what);
    free_outcome_of(of, &o);
    trial_free(&t);
}

/* Posts of two layers of one row of seven pixels, part and posts so much longer, are made or refused. */
static void try_posting(uint32_t pitch, uint32_t overhang, uint32_t radius, unsigned part_longer, unsigned posts_longer, uint8_t part,
                        uint64_t answer, side *of, const char *who)
{
    struct trial t;
    struct outcome o;
    char what[80];
    memset(&t, 0, sizeof t);
    t.call = POSTS;
    t.w = 7;
    t.h = 1;
    t.n = 2;
    t.pitch = pitch;
    t.overhang = overhang;
    t.radius = radius;
    buffer_make(&t, PART_STACK, stack_bytes_of(&t) + part_longer);
    buffer_make(&t, POSTS_STACK, stack_bytes_of(&t) + posts_longer);
    t.lent[PART_STACK].bytes[1] = part;
    ask(of, &t, &o);
    snprintf(what, sizeof what, "posts with p %u, radius %u and refusal %u", (unsigned)pitch, (unsigned)radius, kg_number(answer));
    expect(o.signal == 0 && o.answer == answer, who, what);
    free_outcome_of(of, &o);
    trial_free(&t);
}

static void try_postings(side *of, const char *who)
{
    try_post_bound(66, 2177, 1, of, who);
    try_post_bound(66, 2176, 0, of, who);
    try_post_bound(303, 9998, 1, of, who);
    try_post_bound(65, 2144, 0, of, who);
    try_posting(100, 200, 3299, 0, 0, 0x02, 0, of, who);
    try_posting(100, 200, 3300, 0, 0, 0x02, 20, of, who);
    try_posting(10, 200, 329, 0, 0, 0x02, 0, of, who);
    try_posting(10, 200, 330, 0, 0, 0x02, 20, of, who);
    try_posting(1000, 200, 10000, 0, 0, 0x02, 0, of, who);
    try_posting(1000, 200, 10001, 0, 0, 0x02, 20, of, who);
    try_posting(1000, 200, 65536, 0, 0, 0x02, 20, of, who);
    try_posting(1000, 200, 0xFFFFFFFFu, 0, 0, 0x02, 20, of, who);
    try_posting(9, 200, 3300, 1, 1, 0x01, 2, of, who);
    try_posting(100, 3300, 3300, 1, 1, 0x01, 3, of, who);
    try_posting(100, 200, 3300, 1, 1, 0x01, 20, of, who);
    try_posting(100, 200, 200, 1, 1, 0x01, 4, of, who);
    try_posting(100, 200, 200, 0, 1, 0x01, 5, of, who);
    try_posting(100, 200, 200, 0, 0, 0x01, at_row(7, 1, 0), of, who);
}

/* ---- The example file ---- */

static void try_reading(side *of, const char *who)
{
    static const uint64_t told[KG_TOLD] = {8, 1, 2, 100, 200, 0, 4, 18, 24, 28};
    struct trial t;
    struct outcome o;
    memset(&t, 0, sizeof t);
    t.call = READ;
    buffer_put(&t, JOB_FILE, example_file, sizeof example_file);
    buffer_make(&t, TOLD, KG_TOLD);
    ask(of, &t, &o);
    expect(o.signal == 0 && o.answer == 0 && holds(&t, &o, TOLD, told), who, "reading the example file");
    free_outcome_of(of, &o);
    t.call = PART;
    ask(of, &t, &o);
    expect(o.signal == 0 && kg_offset(o.answer) == 18 && kg_length(o.answer) == 2, who, "the part of the example file");
    free_outcome_of(of, &o);
    t.call = SUPPORT;
    ask(of, &t, &o);
    expect(o.signal == 0 && o.answer == 0, who, "the support of the example file");
    free_outcome_of(of, &o);
    trial_free(&t);
}

/* The first `len` bytes of the example, one byte changed, are refused. */
static void try_damaged(uint64_t len, uint64_t at, uint8_t byte, uint64_t answer, side *of, const char *who)
{
    struct trial t;
    struct outcome o;
    char what[80];
    memset(&t, 0, sizeof t);
    t.call = READ;
    buffer_put(&t, JOB_FILE, example_file, len < sizeof example_file ? len : sizeof example_file);
    buffer_make(&t, JOB_FILE, len);
    if (at < len) t.lent[JOB_FILE].bytes[at] = byte;
    buffer_make(&t, TOLD, KG_TOLD);
    ask(of, &t, &o);
    snprintf(what, sizeof what, "%u bytes of the example with %u at %u", (unsigned)len, (unsigned)byte, (unsigned)at);
    expect(o.signal == 0 && o.answer == answer, who, what);
    free_outcome_of(of, &o);
    trial_free(&t);
}

static void try_damages(side *of, const char *who)
{
    try_damaged(0, 0, 0, 12, of, who);
    try_damaged(3, 2, 9, 12, of, who);    /* a count cut short, whatever it begins with */
    try_damaged(4, 3, 6, 13, of, who);    /* a wrong count before its contents */
    try_damaged(13, 5, 0, 12, of, who);   /* values only when section 1 is whole */
    try_damaged(14, 5, 0, 1, of, who);
    try_damaged(14, 11, 9, 2, of, who);
    try_damaged(14, 13, 0xC8, 12, of, who);
    try_damaged(18, 14, 0xFF, 13, of, who);
    try_damaged(19, 0, 0, 12, of, who);
    try_damaged(24, 23, 1, 13, of, who);
    try_damaged(24, 23, 2, 12, of, who);
    try_damaged(28, 27, 8, 13, of, who);
    try_damaged(29, 28, 0, 14, of, who);
    try_damaged(28, 5, 7, at_row(7, 1, 0), of, who); /* W 7: the last bit of FF is padding */
    try_damaged(29, 5, 7, 14, of, who);   /* padding after 14 */
}

static void try_writing(side *of, const char *who)
{
    struct trial t;
    struct outcome o;
    memset(&t, 0, sizeof t);
    t.call = WRITE;
    t.w = 8;
    t.h = 1;
    t.n = 2;
    t.pitch = 100;
    t.overhang = 200;
    buffer_put(&t, PART_STACK, "\xE0\xFF", 2);
    buffer_make(&t, SUPPORT_STACK, 0);
    buffer_make(&t, RING_PLANES, 0);
    buffer_make(&t, OUT, sizeof example_file);
    ask(of, &t, &o);
    expect(o.signal == 0 && kg_number(o.answer) == 0 && kg_value(o.answer) == 28 && holds(&t, &o, OUT, example_file), who,
           "writing the example file");
    free_outcome_of(of, &o);
    trial_free(&t);
}

/* ---- The report ---- */

static int reports(const uint8_t *file, uint64_t len, const char *text)
{
    char out[256];
    uint64_t length = peer_report(file, len, out, sizeof out);
    return length == strlen(text) && memcmp(out, text, length) == 0;
}

static void try_report(void)
{
    static uint8_t zeros[65537];
    uint8_t large[26 + 3 * 256 * 32], narrow[sizeof example_file];
    expect(reports(example_file, sizeof example_file, example_report), "peer", "the example report");
    memcpy(narrow, example_file, sizeof narrow);
    narrow[5] = 7;
    expect(reports(narrow, sizeof narrow, "refused 7 1 0\n"), "peer", "the report of the example with W 7");
    expect(reports(NULL, 0, "refused 12\n"), "peer", "the report of nothing");
    expect(reports(zeros, 65536, "refused 13\n"), "peer", "the report of 65,536 bytes");
    expect(reports(zeros, 65537, "refused 17\n"), "peer", "the report of 65,537 bytes");
    peer_write(256, 64, 3, 100, 0, zeros, 3 * 64 * 32, NULL, 0, NULL, 0, large, sizeof large);
    expect(reports(large, 26 + 3 * 64 * 32, "job 256 64 3 reach 0\n2 0 0 0\n1 0 0 0\n0 0 0 0\n"), "peer", "the report of 32,768 rings");
    peer_write(129, 128, 3, 100, 0, zeros, 3 * 128 * 17, NULL, 0, NULL, 0, large, sizeof large);
    expect(reports(large, 26 + 3 * 128 * 17, "refused 17\n"), "peer", "the report of more than 32,768 rings");
}

int try_pieces(void)
{
    static side *const sides[2] = {call_library, call_peer};
    static const char *const names[2] = {"library", "peer"};
    for (int k = 0; k < 2; k++) {
        for (size_t j = 0; j < sizeof pieces / sizeof *pieces; j++) try_piece(&pieces[j], sides[k], names[k]);
        for (size_t j = 0; j < sizeof clean_pieces / sizeof *clean_pieces; j++) try_clean_piece(&clean_pieces[j], sides[k], names[k]);
        for (size_t j = 0; j < sizeof posts_pieces / sizeof *posts_pieces; j++) try_posts_piece(&posts_pieces[j], sides[k], names[k]);
        for (size_t j = 0; j < sizeof padded / sizeof *padded; j++) try_padded(&padded[j], sides[k], names[k]);
        try_reaches(sides[k], names[k]);
        try_bounds(sides[k], names[k]);
        try_sizes(sides[k], names[k]);
        try_cleanings(sides[k], names[k]);
        try_postings(sides[k], names[k]);
        try_reading(sides[k], names[k]);
        try_damages(sides[k], names[k]);
        try_writing(sides[k], names[k]);
    }
    try_report();
    return failures;
}
