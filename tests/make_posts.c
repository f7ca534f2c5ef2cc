/* Makes trials of the posts call: all small stacks, tables a little larger than the disc of the radius, towers, and random ones. */
#include "make.h"

/* Small radii mostly, whole pixels and between them, and the limits often enough. */
uint32_t some_radius(struct dice *d, const struct trial *t)
{
    static const unsigned reaches[] = {0, 1, 1, 1, 2, 2, 2, 3, 4, 5, 10, 31, 32};
    uint32_t reach = (uint32_t)(chance(d, 4) ? below(d, 33) : reaches[below(d, sizeof reaches / sizeof *reaches)]);
    uint32_t radius = reach * t->pitch;
    if (chance(d, 2)) radius += chance(d, 4) ? t->pitch - 1 : (uint32_t)below(d, t->pitch);
    return radius > 10000 ? 10000 : radius;
}

/* Settings whose radius has the largest bound, 1,088, or one less in 4,356. */
static void pick_bound(struct dice *d, struct trial *t)
{
    t->pitch = 66;
    t->overhang = (uint32_t)below(d, 200);
    t->radius = (uint32_t)between(d, 2176, 2177);
}

/* ---- Parts with something to hold below each layer ---- */

/* A few dots, noise, all, stripes, diagonals, nothing. */
static int in_layer(struct dice *d, uint64_t shape, uint64_t every, uint64_t row, uint64_t column)
{
    switch (shape) {
    case 0: return chance(d, 20);
    case 1: return chance(d, 2);
    case 2: return 1;
    case 3: return column % every != 1;
    case 4: return (row + column) % every == 0;
    default: return 0;
    }
}

void draw_layers(struct dice *d, struct trial *t)
{
    for (uint64_t layer = 0; layer < t->n; layer++) {
        uint64_t shape = layer + 1 == t->n ? below(d, 5) : below(d, 6), every = between(d, 2, 9);
        for (uint64_t row = 0; row < t->h; row++)
            for (uint64_t column = 0; column < t->w; column++)
                set_pixel(t->lent[PART_STACK].bytes, t->w, t->h, layer, row, column, in_layer(d, shape, every, row, column));
    }
}

void make_posts(struct dice *d, struct trial *t)
{
    if (chance(d, 20)) pick_bound(d, t);
    else t->radius = some_radius(d, t);
    draw_lent(d, t);
    if (chance(d, 2)) draw_layers(d, t);
    lend_filled(d, t);
    if (chance(d, 3)) spoil(d, t);
}

/* ---- All small stacks ---- */

/* Stacks whose layers from one on are drawn in every way, those below it being empty. */
static const struct drawn {
    uint64_t w, h, n, from;
} drawn[] = {
    {3, 3, 2, 1}, {4, 2, 2, 1}, {2, 4, 2, 1}, {4, 1, 3, 1}, {2, 2, 3, 1}, {2, 2, 2, 0}, {3, 1, 3, 0},
};

/* The number-th of all such stacks, with a radius of 1, 1.5 and 2 pixels; the reach is 1 where layer 0 is drawn, and else 0. */
int small_posts(struct dice *d, struct trial *t, uint64_t *number)
{
    for (size_t k = 0; k < sizeof drawn / sizeof *drawn; k++) {
        uint64_t plane = drawn[k].w * drawn[k].h, first = plane * drawn[k].from, end = plane * drawn[k].n;
        uint64_t all = (uint64_t)3 << (end - first);
        if (*number >= all) {
            *number -= all;
            continue;
        }
        t->call = POSTS;
        t->w = drawn[k].w;
        t->h = drawn[k].h;
        t->n = drawn[k].n;
        t->pitch = 100;
        t->overhang = drawn[k].from == 0 ? 100 : 0;
        t->radius = (uint32_t)(100 + 50 * (*number % 3));
        buffer_make(t, PART_STACK, stack_bytes_of(t));
        for (uint64_t p = first; p < end; p++)
            set_pixel(t->lent[PART_STACK].bytes, t->w, t->h, p / plane, p % plane / t->w, p % t->w, *number / 3 >> (p - first) & 1);
        lend_filled(d, t);
        return 1;
    }
    return 0;
}

/* ---- Tables ---- */

enum { NEW_POSTS, FROM_ABOVE, WITH_HOLES, HALF_EMPTY, TABLES };

/* A full layer; all of it but the middle; all but one pixel in twenty; one pixel in two. */
static int in_table(struct dice *d, uint64_t kind, int in_middle)
{
    return kind == NEW_POSTS ? 1 : kind == FROM_ABOVE ? !in_middle : kind == WITH_HOLES ? !chance(d, 20) : chance(d, 2);
}

/* The number-th layer over nothing, with radii of whole pixels and between them: a little larger than the disc, held by new posts alone or also by
 * that of a pixel above its middle; or as wide as an image can be and a little higher than the disc, so that discs lie across words. */
int table_case(struct dice *d, struct trial *t, uint64_t *number)
{
    static const unsigned reaches[] = {0, 1, 2, 3, 5, 10, 31, 32}, between[] = {0, 42, 99};
    enum { REACHES = sizeof reaches / sizeof *reaches, ALL = TABLES * REACHES * (sizeof between / sizeof *between) };
    uint64_t k = *number / TABLES, kind = *number % TABLES, middle;
    if (*number >= ALL) {
        *number -= ALL;
        return 0;
    }
    t->call = POSTS;
    middle = reaches[k % REACHES] + 1;
    t->w = kind < WITH_HOLES ? 2 * middle + 1 : 256;
    t->h = kind < WITH_HOLES ? t->w : middle + 2;
    t->n = kind == FROM_ABOVE ? 3 : 2;
    t->pitch = 100;
    t->radius = 100 * reaches[k % REACHES] + between[k / REACHES];
    buffer_make(t, PART_STACK, stack_bytes_of(t));
    for (uint64_t row = 0; row < t->h; row++)
        for (uint64_t column = 0; column < t->w; column++) {
            int in_middle = row == middle && column == middle;
            set_pixel(t->lent[PART_STACK].bytes, t->w, t->h, 1, row, column, in_table(d, kind, in_middle));
            if (kind == FROM_ABOVE) set_pixel(t->lent[PART_STACK].bytes, t->w, t->h, 2, row, column, in_middle);
        }
    lend_filled(d, t);
    return 1;
}

/* ---- Towers ---- */

/* The number-th stack of all 512 layers. */
int tower_case(struct dice *d, struct trial *t, uint64_t *number)
{
    enum { ALL = 6 };
    if (*number >= ALL) {
        *number -= ALL;
        return 0;
    }
    t->call = POSTS;
    t->w = between(d, 2, 9);
    t->h = between(d, 1, 3);
    t->n = 512;
    pick_settings(d, t);
    t->radius = some_radius(d, t);
    buffer_make(t, PART_STACK, stack_bytes_of(t));
    draw_layers(d, t);
    lend_filled(d, t);
    return 1;
}
