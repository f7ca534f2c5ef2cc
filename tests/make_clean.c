/* Makes trials of the clean call: all small planes closed, holes just as large as the disc of the gap, and random ones. */
#include "make.h"

/* Small gaps mostly, and the limit often enough. */
uint64_t some_gap(struct dice *d)
{
    static const unsigned gaps[] = {0, 1, 1, 1, 2, 2, 2, 3, 4, 5, 10, 31, 32};
    return chance(d, 4) ? below(d, 33) : gaps[below(d, sizeof gaps / sizeof *gaps)];
}

/* ---- Parts with thin gaps in the support under them ---- */

struct pattern {
    uint64_t shape, every, inset;
};

/* Stripes, diagonals, dots, a frame that stands off the image's edge, all but a corner. */
static int in_pattern(const struct trial *t, struct pattern p, uint64_t row, uint64_t column)
{
    uint64_t from_bottom = t->h - 1 - row, from_right = t->w - 1 - column;
    switch (p.shape) {
    case 0: return column % p.every != 1;
    case 1: return row % p.every != 1;
    case 2: return (row + column) % p.every == 0;
    case 3: return (row * t->w + column) % 61 == 7;
    case 4: return row == p.inset || column == p.inset || from_bottom == p.inset || from_right == p.inset;
    default: return from_bottom >= p.every || from_right >= p.every;
    }
}

/* The pattern in the top layer, and a few posts or nothing below it. */
void draw_gaps(struct dice *d, struct trial *t)
{
    struct pattern p;
    int posts = chance(d, 2);
    uint64_t apart = between(d, 3, 90);
    p.shape = below(d, 6);
    p.every = between(d, 2, 9);
    p.inset = below(d, 4);
    for (uint64_t layer = 0; layer < t->n; layer++)
        for (uint64_t row = 0; row < t->h; row++)
            for (uint64_t column = 0; column < t->w; column++) {
                int post = posts && (7 * row + 13 * column + layer) % apart == 0;
                set_pixel(t->lent[PART_STACK].bytes, t->w, t->h, layer, row, column,
                          layer + 1 == t->n ? in_pattern(t, p, row, column) : post);
            }
}

void make_clean(struct dice *d, struct trial *t)
{
    t->gap = some_gap(d);
    draw_lent(d, t);
    if (chance(d, 2)) draw_gaps(d, t);
    lend_filled(d, t);
    if (chance(d, 3)) spoil(d, t);
}

/* ---- All small planes ---- */

/* Stacks whose layers from one on are drawn in every way, those below it being empty. */
static const struct drawn {
    uint64_t w, h, n, from;
} drawn[] = {
    {8, 1, 2, 1}, {1, 8, 2, 1}, {4, 2, 2, 1}, {2, 4, 2, 1}, {3, 3, 2, 1}, /* support is the upper layer, any plane */
    {4, 1, 2, 0}, {1, 4, 2, 0}, {2, 2, 2, 0}, {3, 1, 3, 0}, {1, 3, 3, 0},
};

/* The number-th of all such stacks, cleaned with gaps 1 and 2; the reach is 1. */
int small_clean(struct dice *d, struct trial *t, uint64_t *number)
{
    for (size_t k = 0; k < sizeof drawn / sizeof *drawn; k++) {
        uint64_t plane = drawn[k].w * drawn[k].h, first = plane * drawn[k].from, end = plane * drawn[k].n;
        uint64_t all = (uint64_t)2 << (end - first);
        if (*number >= all) {
            *number -= all;
            continue;
        }
        t->call = CLEAN;
        t->w = drawn[k].w;
        t->h = drawn[k].h;
        t->n = drawn[k].n;
        t->pitch = t->overhang = 100;
        t->gap = 1 + *number % 2;
        buffer_make(t, PART_STACK, stack_bytes_of(t));
        for (uint64_t p = first; p < end; p++)
            set_pixel(t->lent[PART_STACK].bytes, t->w, t->h, p / plane, p % plane / t->w, p % t->w, *number / 2 >> (p - first) & 1);
        lend_filled(d, t);
        return 1;
    }
    return 0;
}

/* ---- Holes ---- */

/* The number-th hole in support, all pixels up to a squared distance from the image's middle, its edge or its corner: that of the disc, which
 * stays open in the middle of the image, or one less or more. */
int hole_case(struct dice *d, struct trial *t, uint64_t *number)
{
    static const unsigned gaps[] = {1, 2, 3, 5, 10, 31, 32};
    enum { GAPS = sizeof gaps / sizeof *gaps, ALL = 3 * 3 * GAPS };
    uint64_t k = *number, at = k / GAPS / 3, squared, middle_row, middle_column;
    if (k >= ALL) {
        *number -= ALL;
        return 0;
    }
    t->call = CLEAN;
    t->gap = gaps[k % GAPS];
    t->w = t->h = 2 * t->gap + 3;
    t->n = 2;
    t->pitch = 100;
    squared = t->gap * t->gap + k / GAPS % 3 - 1;
    middle_row = at == 0 ? t->gap + 1 : chance(d, 2) ? 0 : t->h - 1;
    middle_column = at < 2 ? t->gap + 1 : chance(d, 2) ? 0 : t->w - 1;
    buffer_make(t, PART_STACK, stack_bytes_of(t));
    for (uint64_t row = 0; row < t->h; row++)
        for (uint64_t column = 0; column < t->w; column++) {
            uint64_t dr = row - middle_row, dc = column - middle_column; /* squares are the same modulo 2^64 */
            set_pixel(t->lent[PART_STACK].bytes, t->w, t->h, 1, row, column, dr * dr + dc * dc > squared);
        }
    lend_filled(d, t);
    return 1;
}
