/* Makes trials with padding set: every first row of small stacks, and the last rows of large ones, of part, of support and of both. */
#include "make.h"

static const enum call calls[] = {PLAN, CLEAN, POSTS, CHECK, READ, PART, SUPPORT, COPY_RINGS, WRITE};

enum { ASKED = sizeof calls / sizeof *calls };

/* ---- Padding of a stack ---- */

static void set_padding(struct dice *d, uint8_t *stack, uint64_t w, uint64_t row)
{
    uint64_t last = (row + 1) * row_bytes_of(w) - 1, bits = 8 - w % 8;
    stack[last] |= (uint8_t)(chance(d, 4) ? 0xFF >> w % 8 : 1 << below(d, bits));
}

/* Sets padding in a row, and often in some of those behind it. */
static void set_from(struct dice *d, uint8_t *stack, uint64_t w, uint64_t first, uint64_t rows)
{
    set_padding(d, stack, w, first);
    if (first + 1 == rows || chance(d, 3)) return;
    for (uint64_t times = between(d, 1, 3); times > 0; times--) {
        uint64_t row = between(d, first + 1, rows - 1);
        set_padding(d, stack, w, row);
    }
}

void spoil_padding(struct dice *d, uint8_t *stack, uint64_t w, uint64_t rows)
{
    if (w % 8 == 0) return;
    switch (below(d, 3)) {
    case 0: set_from(d, stack, w, rows - 1, rows); break;
    case 1: set_from(d, stack, w, 0, rows); break;
    default: set_from(d, stack, w, below(d, rows), rows); break;
    }
}

/* ---- Whole trials ---- */

/* Where padding begins: rows counted through the stack, their number or more for none. */
struct bad {
    uint64_t part, support, rows;
};

/* Lends what the call is given: a good job of the lent part, with support where that is to be spoilt, and then its padding set. */
static void lend_bad(struct dice *d, struct trial *t, struct bad b)
{
    int stored = b.support < b.rows || chance(d, 2);
    uint8_t *part, *support;
    write_by_peer(d, t, stored);
    if (t->call == PLAN || t->call == CLEAN || t->call == POSTS) lend_filled(d, t);
    if (t->call == CHECK && !stored) plan_by_peer(t);
    part = uses(t->call, JOB_FILE) ? t->lent[JOB_FILE].bytes + 18 : t->lent[PART_STACK].bytes;
    support = uses(t->call, JOB_FILE) ? t->lent[JOB_FILE].bytes + 22 + stack_bytes_of(t) : t->lent[SUPPORT_STACK].bytes;
    if (b.part < b.rows) set_from(d, part, t->w, b.part, b.rows);
    if (b.support < b.rows) set_from(d, support, t->w, b.support, b.rows);
    if (!uses(t->call, JOB_FILE)) buffer_make(t, JOB_FILE, 0);
    if (t->call == READ) lend_scribbled(d, t, TOLD, KG_TOLD);
    if (t->call == COPY_RINGS) scribble(d, t->lent[RING_PLANES].bytes, t->lent[RING_PLANES].held);
    if (t->call == WRITE) lend_scribbled(d, t, OUT, job_bytes_of(t, stored));
}

/* The number-th of all first rows with padding set in part and support, each also with none, of up to three layers of up to three rows. */
static int small_padding(struct dice *d, struct trial *t, uint64_t *number)
{
    static const unsigned wide[] = {1, 4, 5, 7, 9, 15, 17, 33};
    struct bad b;
    for (t->h = 1; t->h <= 3; t->h++)
        for (t->n = 1; t->n <= 3; t->n++) {
            uint64_t all = ASKED * (t->n * t->h + 1) * (t->n * t->h + 1);
            if (*number >= all) {
                *number -= all;
                continue;
            }
            b.rows = t->n * t->h;
            b.part = *number / ASKED % (b.rows + 1);
            b.support = *number / ASKED / (b.rows + 1);
            t->call = calls[*number % ASKED];
            t->w = wide[below(d, sizeof wide / sizeof *wide)];
            t->gap = t->call == CLEAN ? some_gap(d) : 0;
            pick_settings(d, t);
            if (t->call == POSTS) t->radius = some_radius(d, t);
            draw_lent(d, t);
            lend_bad(d, t, b);
            return 1;
        }
    return 0;
}

#define NONE (~(uint64_t)0)

/* Stacks of 256 rows or 512 layers, and where padding begins: in their last rows, and where a count of layers or of rows passes 8 or 16
 * bits. */
static const struct far {
    uint64_t h, n, part, support;
} far[] = {
    {256, 2, 255, NONE}, {256, 2, 511, 0}, {256, 2, NONE, 256}, {256, 2, NONE, 511},
    {1, 512, 255, NONE}, {1, 512, 256, 100}, {1, 512, 511, NONE}, {1, 512, NONE, 256}, {1, 512, NONE, 511},
    {3, 512, 1535, 1}, {3, 512, NONE, 1535}, {129, 512, 66047, NONE},
};

/* The number-th of them, of an empty part. */
static int far_padding(struct dice *d, struct trial *t, uint64_t *number)
{
    enum { ALL = sizeof far / sizeof *far * ASKED };
    const struct far *f = &far[*number / ASKED % (sizeof far / sizeof *far)];
    struct bad b;
    if (*number >= ALL) {
        *number -= ALL;
        return 0;
    }
    t->call = calls[*number % ASKED];
    t->w = f->n * f->h > 2048 ? 7 : between(d, 1, 7);
    t->h = f->h;
    t->n = f->n;
    t->pitch = t->overhang = 100;
    b.part = f->part;
    b.support = f->support;
    b.rows = t->n * t->h;
    buffer_make(t, PART_STACK, stack_bytes_of(t));
    lend_bad(d, t, b);
    return 1;
}

int padding_case(struct dice *d, struct trial *t, uint64_t *number)
{
    return small_padding(d, t, number) || far_padding(d, t, number);
}
