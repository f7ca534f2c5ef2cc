/* Draws parts: empty, full, equal layers, noise, walls with tongues, discs, steps, and paths (spirals, serpents, combs, diagonals) over
 * posts, which give long chains of rings. Everything is drawn with a pen that may swap and mirror rows and columns.
 * No expression throws the dice twice in an order that C leaves open, so a case is the same on every machine.
 */
#include "trial.h"

#include <stdlib.h>

struct pen {
    uint8_t *stack;
    uint64_t w, h, n;
    int swap, mirror_row, mirror_column;
    uint64_t rows, columns; /* of the image as the pen sees it */
};

static void plot(struct pen *p, uint64_t layer, uint64_t row, uint64_t column, int on)
{
    if (row >= p->rows || column >= p->columns) return;
    if (p->mirror_row) row = p->rows - 1 - row;
    if (p->mirror_column) column = p->columns - 1 - column;
    if (p->swap)
        set_pixel(p->stack, p->w, p->h, layer, column, row, on);
    else
        set_pixel(p->stack, p->w, p->h, layer, row, column, on);
}

static void plot_box(struct pen *p, uint64_t layer, uint64_t row, uint64_t column, uint64_t rows, uint64_t columns)
{
    for (uint64_t r = row; r < row + rows && r < p->rows; r++)
        for (uint64_t c = column; c < column + columns && c < p->columns; c++) plot(p, layer, r, c, 1);
}

static void copy_layer(struct pen *p, uint64_t from, uint64_t to)
{
    uint64_t bytes = p->h * row_bytes_of(p->w);
    for (uint64_t k = 0; k < bytes; k++) p->stack[to * bytes + k] = p->stack[from * bytes + k];
}

static void flip_some(struct dice *d, struct pen *p, uint64_t layer, uint64_t times)
{
    while (times-- > 0) {
        uint64_t row = below(d, p->h), column = below(d, p->w);
        int was = pixel(p->stack, p->w, p->h, layer, row, column);
        set_pixel(p->stack, p->w, p->h, layer, row, column, !was);
    }
}

static void noise(struct dice *d, struct pen *p, uint64_t layer, unsigned percent)
{
    for (uint64_t row = 0; row < p->rows; row++)
        for (uint64_t column = 0; column < p->columns; column++)
            if (below(d, 100) < percent) plot(p, layer, row, column, 1);
}

static unsigned some_density(struct dice *d)
{
    static const unsigned densities[] = {1, 3, 10, 25, 50, 50, 75, 90, 98};
    return densities[below(d, sizeof densities / sizeof *densities)];
}

static void disc(struct pen *p, uint64_t layer, int64_t row, int64_t column, int64_t radius)
{
    for (int64_t r = 0; r < (int64_t)p->rows; r++)
        for (int64_t c = 0; c < (int64_t)p->columns; c++)
            if ((r - row) * (r - row) + (c - column) * (c - column) <= radius * radius) plot(p, layer, (uint64_t)r, (uint64_t)c, 1);
}

/* ---- Whole stacks ---- */

static void draw_empty(struct dice *d, struct pen *p)
{
    (void)d;
    (void)p;
}

static void draw_full(struct dice *d, struct pen *p)
{
    (void)d;
    for (uint64_t layer = 0; layer < p->n; layer++) plot_box(p, layer, 0, 0, p->rows, p->columns);
}

static void draw_equal(struct dice *d, struct pen *p)
{
    noise(d, p, 0, some_density(d));
    for (uint64_t layer = 1; layer < p->n; layer++) copy_layer(p, 0, layer);
}

static void draw_noise(struct dice *d, struct pen *p)
{
    unsigned density = some_density(d);
    int one = chance(d, 2);
    for (uint64_t layer = 0; layer < p->n; layer++) noise(d, p, layer, one ? density : some_density(d));
}

static void draw_alike(struct dice *d, struct pen *p)
{
    noise(d, p, 0, some_density(d));
    for (uint64_t layer = 1; layer < p->n; layer++) {
        copy_layer(p, layer - 1, layer);
        flip_some(d, p, layer, 1 + below(d, 1 + p->w * p->h / 8));
    }
}

static void draw_dots(struct dice *d, struct pen *p)
{
    for (uint64_t layer = 0; layer < p->n; layer++) flip_some(d, p, layer, below(d, 4));
}

/* A wall at the left, and above the bottom layer tongues that are joined to it or stand off by a gap. */
static void draw_wall(struct dice *d, struct pen *p)
{
    uint64_t wall = 1 + below(d, 1 + p->columns / 2);
    for (uint64_t layer = 0; layer < p->n; layer++) {
        int missing = layer > 0 && chance(d, 8);
        if (!missing) plot_box(p, layer, 0, 0, p->rows, wall);
        for (uint64_t row = 0; layer > 0 && row < p->rows; row++) {
            uint64_t gap = chance(d, 3) ? 1 + below(d, 2) : 0;
            if (chance(d, 2)) plot_box(p, layer, row, wall + gap, 1, 1 + below(d, p->columns));
        }
    }
}

static void draw_discs(struct dice *d, struct pen *p)
{
    uint64_t most = p->rows < p->columns ? p->columns : p->rows;
    for (uint64_t layer = 0; layer < p->n; layer++)
        for (uint64_t k = between(d, 1, 2); k > 0; k--) {
            int64_t row = (int64_t)below(d, p->rows), column = (int64_t)below(d, p->columns);
            disc(p, layer, row, column, (int64_t)below(d, 1 + most / 2 + layer));
        }
}

/* Boxes that grow or shrink upward by a few pixels. */
static void draw_steps(struct dice *d, struct pen *p)
{
    int outward = !chance(d, 4);
    for (uint64_t layer = 0; layer < p->n; layer++) {
        uint64_t step = outward ? layer + 1 : p->n - layer;
        uint64_t rows = 1 + step * below(d, 3);
        plot_box(p, layer, 0, 0, rows, 1 + step * between(d, 1, 4));
    }
}

/* ---- Paths over posts ---- */

static uint8_t mask[256 * 256]; /* the path, row by row as the pen sees the image */

static uint8_t *mask_at(const struct pen *p, uint64_t row, uint64_t column) { return &mask[row * p->columns + column]; }

static int on_mask(const struct pen *p, int64_t row, int64_t column)
{
    if (row < 0 || column < 0 || row >= (int64_t)p->rows || column >= (int64_t)p->columns) return 0;
    return *mask_at(p, (uint64_t)row, (uint64_t)column);
}

static int can_go(const struct pen *p, int64_t row, int64_t column, int64_t dr, int64_t dc)
{
    int64_t r = row + dr, c = column + dc;
    if (r < 0 || c < 0 || r >= (int64_t)p->rows || c >= (int64_t)p->columns) return 0;
    return !on_mask(p, r, c) && !on_mask(p, r + dr, c + dc);
}

static void mask_spiral(struct pen *p)
{
    static const int turn_row[4] = {0, 1, 0, -1}, turn_column[4] = {1, 0, -1, 0};
    int64_t row = 0, column = 0;
    int way = 0, tries = 0;
    *mask_at(p, 0, 0) = 1;
    while (tries < 2) {
        if (can_go(p, row, column, turn_row[way], turn_column[way])) {
            row += turn_row[way];
            column += turn_column[way];
            *mask_at(p, (uint64_t)row, (uint64_t)column) = 1;
            tries = 0;
        } else {
            way = (way + 1) % 4;
            tries++;
        }
    }
}

static void mask_serpent(struct pen *p)
{
    for (uint64_t row = 0; row < p->rows; row++)
        for (uint64_t column = 0; column < p->columns; column++) {
            uint64_t bend = row % 4 == 1 ? p->columns - 1 : 0;
            *mask_at(p, row, column) = row % 2 == 0 || column == bend;
        }
}

static void mask_comb(struct pen *p)
{
    for (uint64_t row = 0; row < p->rows; row++)
        for (uint64_t column = 0; column < p->columns; column++) *mask_at(p, row, column) = row == 0 || column % 2 == 0;
}

static void mask_diagonals(struct pen *p, uint64_t apart)
{
    for (uint64_t row = 0; row < p->rows; row++)
        for (uint64_t column = 0; column < p->columns; column++) *mask_at(p, row, column) = (row + column) % apart == 0;
}

/* Odd layers have the path, even ones posts beside it and a few pixels on it, from which rings can begin. */
static void draw_path(struct dice *d, struct pen *p)
{
    unsigned posts = (unsigned)between(d, 0, 100);
    int from_start = !chance(d, 3);
    for (uint64_t k = 0; k < p->rows * p->columns; k++) mask[k] = 0;
    switch (below(d, 4)) {
    case 0: mask_spiral(p); break;
    case 1: mask_serpent(p); break;
    case 2: mask_comb(p); break;
    default: mask_diagonals(p, between(d, 2, 5)); break;
    }
    for (uint64_t layer = 0; layer < p->n; layer++) {
        for (uint64_t row = 0; row < p->rows; row++)
            for (uint64_t column = 0; column < p->columns; column++) {
                int path = *mask_at(p, row, column);
                int on = layer % 2 == 1 ? path : !path && below(d, 100) < posts;
                if (on) plot(p, layer, row, column, 1);
            }
        if (from_start && layer % 2 == 0) plot(p, layer, 0, 0, 1);
        for (uint64_t k = from_start ? 0 : below(d, 3); k > 0; k--) {
            uint64_t row = below(d, p->rows);
            plot(p, layer, row, below(d, p->columns), 1);
        }
    }
}

void draw_part(struct dice *d, uint8_t *part, uint64_t w, uint64_t h, uint64_t n)
{
    typedef void drawing(struct dice *, struct pen *);
    static drawing *const drawings[] = {draw_empty, draw_full, draw_equal, draw_noise, draw_noise, draw_noise, draw_alike, draw_alike,
                                        draw_dots, draw_wall, draw_wall, draw_wall, draw_discs, draw_steps, draw_path, draw_path};
    struct pen p;
    p.stack = part;
    p.w = w;
    p.h = h;
    p.n = n;
    p.swap = chance(d, 2);
    p.mirror_row = chance(d, 2);
    p.mirror_column = chance(d, 2);
    p.rows = p.swap ? w : h;
    p.columns = p.swap ? h : w;
    drawings[below(d, sizeof drawings / sizeof *drawings)](d, &p);
    if (chance(d, 5)) flip_some(d, &p, below(d, n), 2);
}
