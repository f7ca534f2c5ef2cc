/* Makes the trial of a seed and a case number: a few of the largest size, then padding in every row of small stacks, then all very small
 * stacks, then all sizes at the edges of words, then whole discs, then small planes and holes that are closed, then random ones, good and
 * spoilt in every way that has a refusal number. No expression throws the dice twice in an order that C leaves open, so a case is the same
 * on every machine.
 */
#include "make.h"

#include "peer.h"

#include <stdlib.h>
#include <string.h>

/* ---- Sizes and settings ---- */

static uint64_t some_edge(struct dice *d)
{
    static const unsigned edges[] = {1, 2, 7, 8, 9, 15, 16, 17, 31, 32, 33, 63, 64, 65, 127, 128, 129, 248, 255, 256};
    return edges[below(d, sizeof edges / sizeof *edges)];
}

/* Sizes at the edges of bytes and of the limits, held down in pixels. */
static void pick_edges(struct dice *d, struct trial *t)
{
    t->w = some_edge(d);
    t->h = some_edge(d);
    t->n = chance(d, 10) ? 1 : between(d, 2, 3);
    if (t->w * t->h > 4096 && chance(d, 2)) t->w = between(d, 1, 9);
    if (t->w * t->h > 4096) t->h = between(d, 1, 4096 / t->w);
}

static void pick_size(struct dice *d, struct trial *t)
{
    uint64_t kind = below(d, 2000);
    t->n = chance(d, 10) ? 1 : between(d, 2, 4);
    if (kind < 1200) {
        t->w = between(d, 1, 10);
        t->h = between(d, 1, 5);
    } else if (kind < 1600) {
        t->w = between(d, 1, 24);
        t->h = between(d, 1, 12);
    } else if (kind < 1900) {
        pick_edges(d, t);
    } else if (kind < 1980) {
        t->w = between(d, 1, 64);
        t->h = between(d, 1, 64);
    } else if (kind < 1998) {
        t->w = between(d, 1, 9);
        t->h = between(d, 1, 2);
        t->n = chance(d, 2) ? 512 : between(d, 500, 511);
    } else {
        t->w = chance(d, 2) ? 256 : between(d, 170, 255);
        t->h = chance(d, 2) ? 256 : between(d, 170, 255);
        t->n = between(d, 1, 3);
    }
    if (chance(d, 3)) {
        uint64_t w = t->w;
        t->w = t->h;
        t->h = w;
    }
}

/* A pitch and an overhang with the given reach, 0 to 32. */
void pick_settings_of(struct dice *d, struct trial *t, uint32_t reach)
{
    uint32_t most = reach <= 10 ? 1000 : 10000 / reach;
    t->pitch = chance(d, 8) ? (chance(d, 2) ? 10 : most) : (uint32_t)between(d, 10, most);
    t->overhang = reach * t->pitch + (chance(d, 4) ? t->pitch - 1 : (uint32_t)below(d, t->pitch));
    if (t->overhang > 10000) t->overhang = 10000;
}

void pick_settings(struct dice *d, struct trial *t)
{
    uint32_t reach;
    switch (below(d, 4)) {
    case 0: reach = (uint32_t)between(d, 0, 1); break;
    case 1:
    case 2: reach = (uint32_t)between(d, 1, 5); break;
    default: reach = (uint32_t)between(d, 0, 32); break;
    }
    pick_settings_of(d, t, reach);
}

/* ---- Stacks ---- */

void draw_lent(struct dice *d, struct trial *t)
{
    buffer_make(t, PART_STACK, stack_bytes_of(t));
    draw_part(d, t->lent[PART_STACK].bytes, t->w, t->h, t->n);
}

/* Support and rings as the peer plans them. */
void plan_by_peer(struct trial *t)
{
    uint64_t bytes = stack_bytes_of(t), count = ring_count_of(t);
    uint8_t *support = room(bytes);
    uint16_t *rings = room(2 * count);
    peer_plan(t->w, t->h, t->n, t->pitch, t->overhang, t->lent[PART_STACK].bytes, bytes, support, bytes, rings, count);
    buffer_put(t, SUPPORT_STACK, support, bytes);
    buffer_put(t, RING_PLANES, rings, count);
    free(support);
    free(rings);
}

void lend_scribbled(struct dice *d, struct trial *t, enum lent which, uint64_t len)
{
    buffer_make(t, which, len);
    scribble(d, t->lent[which].bytes, t->lent[which].held);
}

/* A good file of the trial's part, with support and rings or without; what it was made of stays lent. */
void write_by_peer(struct dice *d, struct trial *t, int stored)
{
    uint64_t bytes = job_bytes_of(t, stored);
    uint8_t *file = room(bytes);
    buffer_make(t, SUPPORT_STACK, stored ? stack_bytes_of(t) : 0);
    buffer_make(t, RING_PLANES, stored ? ring_count_of(t) : 0);
    if (stored && chance(d, 2)) {
        plan_by_peer(t);
    } else if (stored) {
        draw_part(d, t->lent[SUPPORT_STACK].bytes, t->w, t->h, t->n);
        scribble(d, t->lent[RING_PLANES].bytes, t->lent[RING_PLANES].held);
    }
    peer_write(t->w, t->h, t->n, t->pitch, t->overhang, t->lent[PART_STACK].bytes, t->lent[PART_STACK].len,
               t->lent[SUPPORT_STACK].bytes, t->lent[SUPPORT_STACK].len, (uint16_t *)(void *)t->lent[RING_PLANES].bytes,
               t->lent[RING_PLANES].len, file, bytes);
    buffer_put(t, JOB_FILE, file, bytes);
    free(file);
}

void lend_filled(struct dice *d, struct trial *t)
{
    if (t->call == POSTS) {
        lend_scribbled(d, t, POSTS_STACK, stack_bytes_of(t));
        return;
    }
    lend_scribbled(d, t, SUPPORT_STACK, stack_bytes_of(t));
    lend_scribbled(d, t, RING_PLANES, ring_count_of(t));
    if (t->call == CLEAN) lend_scribbled(d, t, CLEANED_STACK, stack_bytes_of(t));
}

/* ---- The reach call ---- */

static void make_reach(struct dice *d, struct trial *t)
{
    switch (below(d, 6)) {
    case 0: spoil_settings(d, t); break;
    case 1: spoil_reach(d, t); break;
    case 2: pick_settings_of(d, t, (uint32_t)(chance(d, 2) ? 0 : 32)); break;
    case 3:
        t->pitch = (uint32_t)below(d, 1100);
        t->overhang = (uint32_t)below(d, 11000);
        break;
    default: break;
    }
}

/* ---- Planning ---- */

static void make_plan(struct dice *d, struct trial *t)
{
    draw_lent(d, t);
    lend_filled(d, t);
    if (chance(d, 3)) spoil(d, t);
}

/* ---- Writing ---- */

static void make_write(struct dice *d, struct trial *t)
{
    int stored = !chance(d, 3);
    uint64_t bytes = job_bytes_of(t, stored), len = bytes;
    draw_lent(d, t);
    write_by_peer(d, t, stored);
    buffer_make(t, JOB_FILE, 0);
    switch (below(d, 6)) {
    case 0: len = bytes - 1; break;
    case 1: len = bytes + 1; break;
    case 2: len = below(d, bytes); break;
    case 3: len = bytes + below(d, 100); break;
    default: break;
    }
    lend_scribbled(d, t, OUT, len);
    if (chance(d, 3)) {
        spoil(d, t);
    } else if (chance(d, 60)) {
        lend_scribbled(d, t, OUT, bytes + 20);
        t->lent[OUT].len = TWO_32 + below(d, bytes);
    }
}

/* ---- All very small stacks ---- */

/* The number-th plan of a stack with at most eight pixels in all, any reach from 0 to 3; where there are corners, one of the overhangs has them
 * near though its reach is 1. */
static int small_plan(struct trial *t, uint64_t *number)
{
    static const uint32_t in_a_line[4] = {0, 100, 200, 300}, with_corners[4] = {0, 100, 150, 200};
    for (t->w = 1; t->w <= 8; t->w++)
        for (t->h = 1; t->w * t->h <= 8; t->h++)
            for (t->n = 1; t->w * t->h * t->n <= 8; t->n++) {
                uint64_t pixels = t->w * t->h * t->n, all = 4 * ((uint64_t)1 << pixels);
                if (*number >= all) {
                    *number -= all;
                    continue;
                }
                t->call = PLAN;
                t->pitch = 100;
                t->overhang = (t->w > 1 && t->h > 1 ? with_corners : in_a_line)[*number % 4];
                buffer_make(t, PART_STACK, stack_bytes_of(t));
                buffer_make(t, SUPPORT_STACK, stack_bytes_of(t));
                buffer_make(t, RING_PLANES, ring_count_of(t));
                for (uint64_t k = 0; k < pixels; k++)
                    set_pixel(t->lent[PART_STACK].bytes, t->w, t->h, k / (t->w * t->h), k / t->w % t->h, k % t->w,
                              *number / 4 >> k & 1);
                memset(t->lent[SUPPORT_STACK].bytes, 0xFF, t->lent[SUPPORT_STACK].held);
                return 1;
            }
    return 0;
}

/* The number-th check of two layers of two pixels, side by side or one before the other: all parts, supports, rings 0 to 2, reach 0, 1. */
static int small_check(struct trial *t, uint64_t *number)
{
    enum { ALL = 2 * 2 * 16 * 16 * 9 };
    uint64_t k = *number;
    if (k >= ALL) {
        *number -= ALL;
        return 0;
    }
    t->call = CHECK;
    t->w = 1 + k % 2;
    t->h = 3 - t->w;
    t->n = 2;
    t->pitch = 100;
    t->overhang = (uint32_t)(100 * (k / 2 % 2));
    buffer_make(t, PART_STACK, stack_bytes_of(t));
    buffer_make(t, SUPPORT_STACK, stack_bytes_of(t));
    buffer_make(t, RING_PLANES, 2);
    for (uint64_t j = 0; j < 4; j++) {
        set_pixel(t->lent[PART_STACK].bytes, t->w, t->h, j / 2, j % t->h, j % t->w, k / 4 >> j & 1);
        set_pixel(t->lent[SUPPORT_STACK].bytes, t->w, t->h, j / 2, j % t->h, j % t->w, k / 64 >> j & 1);
    }
    ring_put(&t->lent[RING_PLANES], 0, (unsigned)(k / 1024 % 3));
    ring_put(&t->lent[RING_PLANES], 1, (unsigned)(k / 1024 / 3));
    return 1;
}

/* The number-th check of four layers of one pixel: all parts and supports, without a ring. */
static int small_column(struct trial *t, uint64_t *number)
{
    enum { ALL = 16 * 16 };
    if (*number >= ALL) {
        *number -= ALL;
        return 0;
    }
    t->call = CHECK;
    t->w = t->h = 1;
    t->n = 4;
    t->pitch = t->overhang = 100;
    buffer_make(t, PART_STACK, stack_bytes_of(t));
    buffer_make(t, SUPPORT_STACK, stack_bytes_of(t));
    buffer_make(t, RING_PLANES, ring_count_of(t));
    for (uint64_t layer = 0; layer < t->n; layer++) {
        set_pixel(t->lent[PART_STACK].bytes, t->w, t->h, layer, 0, 0, *number >> layer & 1);
        set_pixel(t->lent[SUPPORT_STACK].bytes, t->w, t->h, layer, 0, 0, *number / 16 >> layer & 1);
    }
    return 1;
}

/* ---- Sizes at the edges of words, part at the edges of the image ---- */

/* Part that lies at an edge or a corner of the lower layer, or here and there, under a full layer. */
static void draw_at_edge(struct dice *d, struct trial *t)
{
    uint8_t *part = t->lent[PART_STACK].bytes;
    uint64_t shape = below(d, 6);
    for (uint64_t row = 0; row < t->h; row++)
        for (uint64_t column = 0; column < t->w; column++) {
            int first = column == 0, last = column + 1 == t->w, top = row == 0, bottom = row + 1 == t->h;
            int lower = shape == 0 ? first : shape == 1 ? last : shape == 2 ? first && top : shape == 3 ? last && bottom
                        : shape == 4 ? top : (row * t->w + column) % 61 == 7;
            set_pixel(part, t->w, t->h, 0, row, column, lower);
            set_pixel(part, t->w, t->h, 1, row, column, 1);
        }
}

/* The number-th of all pairs of such sizes, planned, then judged, then cleaned, then held by posts; the reach goes through 0 to 32, and to 5 where
 * there are many pixels. */
static int edge_case(struct dice *d, struct trial *t, uint64_t *number)
{
    static const unsigned edges[] = {1, 7, 8, 9, 63, 64, 65, 127, 128, 255, 256};
    static const enum call calls[] = {PLAN, CHECK, CLEAN, POSTS};
    enum { EDGES = sizeof edges / sizeof *edges, ALL = 4 * EDGES * EDGES };
    uint64_t k = *number;
    if (k >= ALL) {
        *number -= ALL;
        return 0;
    }
    t->call = calls[k / (EDGES * EDGES)];
    t->w = edges[k % EDGES];
    t->h = edges[k / EDGES % EDGES];
    t->n = t->call == POSTS ? 3 : 2;
    pick_settings_of(d, t, (uint32_t)(below(d, 33) % (t->w * t->h > 20000 ? 6 : 33)));
    buffer_make(t, PART_STACK, stack_bytes_of(t));
    t->gap = t->call == CLEAN ? some_gap(d) : 0;
    t->radius = t->call == POSTS ? some_radius(d, t) : 0;
    if (t->call == CLEAN) draw_gaps(d, t);
    else if (t->call == POSTS) draw_layers(d, t);
    else draw_at_edge(d, t);
    if (t->call == CHECK) plan_by_peer(t);
    else lend_filled(d, t);
    return 1;
}

/* ---- Whole discs ---- */

/* The number-th plan of a full layer over one of its corners, one pixel larger than the reach, with overhangs of whole pixels and between them. */
static int disc_case(struct dice *d, struct trial *t, uint64_t *number)
{
    static const unsigned reaches[] = {0, 1, 2, 3, 5, 10, 32}, between[] = {0, 42, 99};
    enum { REACHES = sizeof reaches / sizeof *reaches, ALL = REACHES * (sizeof between / sizeof *between) };
    uint64_t k = *number;
    int bottom, right;
    if (k >= ALL) {
        *number -= ALL;
        return 0;
    }
    bottom = chance(d, 2);
    right = chance(d, 2);
    t->call = PLAN;
    t->w = reaches[k % REACHES] + 2;
    t->h = t->w;
    t->n = 2;
    t->pitch = 100;
    t->overhang = 100 * reaches[k % REACHES] + between[k / REACHES];
    buffer_make(t, PART_STACK, stack_bytes_of(t));
    for (uint64_t p = 0; p < t->w * t->h; p++) set_pixel(t->lent[PART_STACK].bytes, t->w, t->h, 1, p / t->w, p % t->w, 1);
    set_pixel(t->lent[PART_STACK].bytes, t->w, t->h, 0, bottom ? t->h - 1 : 0, right ? t->w - 1 : 0, 1);
    lend_filled(d, t);
    return 1;
}

/* ---- A job of the largest size ---- */

/* Part that grows by 8 columns from layer to layer, with a slit one row wide; for cleaning and posts, half of what it grows by needs support. */
static void make_largest(struct dice *d, struct trial *t, uint64_t which)
{
    static const enum call calls[LARGEST_CASES] = {WRITE, READ, COPY_RINGS, PLAN, CLEAN, POSTS};
    t->call = calls[which];
    t->w = 256;
    t->h = 256;
    t->n = 512;
    t->pitch = 100;
    t->overhang = t->call == CLEAN || t->call == POSTS ? 400 : 3299;
    t->gap = t->call == CLEAN ? 1 : 0;
    t->radius = t->call == POSTS ? 250 : 0;
    buffer_make(t, PART_STACK, stack_bytes_of(t));
    for (uint64_t layer = 0; layer < t->n; layer++)
        for (uint64_t row = 100; row < 116; row += row == 107 ? 2 : 1)
            memset(t->lent[PART_STACK].bytes + (layer * t->h + row) * 32, 0xFF, 1 + layer % 32);
    lend_filled(d, t);
    if (t->call == WRITE) lend_scribbled(d, t, OUT, job_bytes_of(t, 1) + 1);
    if (t->call == READ) lend_scribbled(d, t, TOLD, KG_TOLD);
    if (t->call == READ || t->call == COPY_RINGS) {
        buffer_make(t, JOB_FILE, job_bytes_of(t, 1));
        peer_write(t->w, t->h, t->n, t->pitch, t->overhang, t->lent[PART_STACK].bytes, t->lent[PART_STACK].len,
                   t->lent[SUPPORT_STACK].bytes, t->lent[SUPPORT_STACK].len, (uint16_t *)(void *)t->lent[RING_PLANES].bytes,
                   t->lent[RING_PLANES].len, t->lent[JOB_FILE].bytes, t->lent[JOB_FILE].len);
    }
}

/* ---- Any trial ---- */

static enum call some_call(struct dice *d)
{
    static const enum call calls[] = {REACH, PLAN, PLAN, PLAN, PLAN, CLEAN, CLEAN, CLEAN, CLEAN, POSTS, POSTS, POSTS, POSTS,
                                      CHECK, CHECK, CHECK, CHECK, CHECK, CHECK, READ, READ, PART, SUPPORT, COPY_RINGS, COPY_RINGS,
                                      WRITE, WRITE, WRITE};
    return calls[below(d, sizeof calls / sizeof *calls)];
}

static void make_random(struct dice *d, struct trial *t)
{
    t->call = some_call(d);
    pick_size(d, t);
    pick_settings(d, t);
    switch (t->call) {
    case REACH: make_reach(d, t); break;
    case PLAN: make_plan(d, t); break;
    case CLEAN: make_clean(d, t); break;
    case POSTS: make_posts(d, t); break;
    case CHECK: make_check(d, t); break;
    case READ: make_read(d, t); break;
    case COPY_RINGS: make_copy_rings(d, t); break;
    case WRITE: make_write(d, t); break;
    default: make_file(d, t); break;
    }
}

void make_trial(struct trial *t, uint64_t seed, uint64_t number)
{
    struct dice d;
    d.state = seed;
    d.state = throw_dice(&d) ^ number * 0xD1342543DE82EF95u;
    memset(t, 0, sizeof *t);
    t->place = (enum place)below(&d, PLACES);
    t->skew = (unsigned)below(&d, 8);
    t->null_for_empty = chance(&d, 2);
    if (number < LARGEST_CASES) {
        make_largest(&d, t, number);
        return;
    }
    number -= LARGEST_CASES;
    if (padding_case(&d, t, &number) || small_plan(t, &number) || small_check(t, &number) || small_column(t, &number)) return;
    if (edge_case(&d, t, &number) || disc_case(&d, t, &number)) return;
    if (small_clean(&d, t, &number) || hole_case(&d, t, &number)) return;
    if (small_posts(&d, t, &number) || table_case(&d, t, &number) || tower_case(&d, t, &number)) return;
    make_random(&d, t);
}
