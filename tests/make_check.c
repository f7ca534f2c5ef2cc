/* Makes trials of the check call: what the peer plans, left as it is or changed in support, rings or both. */
#include "make.h"

#include <stdlib.h>
#include <string.h>

static int part_at(const struct trial *t, uint64_t layer, uint64_t row, uint64_t column)
{
    return pixel(t->lent[PART_STACK].bytes, t->w, t->h, layer, row, column);
}

static int support_at(const struct trial *t, uint64_t layer, uint64_t row, uint64_t column)
{
    return pixel(t->lent[SUPPORT_STACK].bytes, t->w, t->h, layer, row, column);
}

static void put_support(struct trial *t, uint64_t layer, uint64_t row, uint64_t column, int on)
{
    set_pixel(t->lent[SUPPORT_STACK].bytes, t->w, t->h, layer, row, column, on);
}

struct spot {
    uint64_t layer, row, column, ring; /* ring: index in the ring planes of the pair under and at the layer */
};

static struct spot some_spot(struct dice *d, const struct trial *t, uint64_t layers)
{
    struct spot s;
    s.layer = below(d, layers);
    s.row = below(d, t->h);
    s.column = below(d, t->w);
    s.ring = (s.layer * t->h + s.row) * t->w + s.column;
    return s;
}

/* Looks for a spot with the given property, a good while. */
static int find_spot(struct dice *d, const struct trial *t, uint64_t layers, int (*wanted)(const struct trial *, struct spot),
                     struct spot *found)
{
    for (int tries = 0; tries < 200 && layers > 0; tries++) {
        *found = some_spot(d, t, layers);
        if (wanted(t, *found)) return 1;
    }
    return 0;
}

static int is_part(const struct trial *t, struct spot s) { return part_at(t, s.layer, s.row, s.column); }
static int is_bare(const struct trial *t, struct spot s) { return !part_at(t, s.layer, s.row, s.column); }
static int is_support(const struct trial *t, struct spot s) { return support_at(t, s.layer, s.row, s.column); }
static int has_ring(const struct trial *t, struct spot s) { return ring_at(&t->lent[RING_PLANES], s.ring) != 0; }
static int has_no_ring(const struct trial *t, struct spot s) { return !has_ring(t, s); }

static int is_shadow(const struct trial *t, struct spot s)
{
    return part_at(t, s.layer + 1, s.row, s.column) && !part_at(t, s.layer, s.row, s.column);
}

/* Support from a spot down to part or the platform. */
static void add_column(struct trial *t, struct spot s)
{
    for (uint64_t layer = s.layer + 1; layer > 0 && !part_at(t, layer - 1, s.row, s.column); layer--)
        put_support(t, layer - 1, s.row, s.column, 1);
}

static void add_held_support(struct dice *d, struct trial *t)
{
    struct spot s;
    for (uint64_t times = between(d, 1, 4); times > 0; times--)
        if (find_spot(d, t, t->n, is_bare, &s) && !is_support(t, s)) {
            add_column(t, s);
            t->marks |= MORE_SUPPORT;
        }
}

static void add_any_support(struct dice *d, struct trial *t)
{
    struct spot s = some_spot(d, t, t->n);
    put_support(t, s.layer, s.row, s.column, 1);
}

static void take_support(struct dice *d, struct trial *t)
{
    struct spot s;
    if (find_spot(d, t, t->n, is_support, &s)) put_support(t, s.layer, s.row, s.column, 0);
}

/* No part here and none above, and no support to stand on. */
static int is_open(const struct trial *t, struct spot s)
{
    return !part_at(t, s.layer, s.row, s.column) && !part_at(t, s.layer + 1, s.row, s.column) && !is_support(t, s);
}

static int holds_part(const struct trial *t, struct spot s) { return is_support(t, s) && part_at(t, s.layer + 1, s.row, s.column); }

/* Leaves pixels of part and of support unheld, in any order. */
static void leave_unheld(struct dice *d, struct trial *t)
{
    struct spot s;
    for (uint64_t times = between(d, 2, 5); times > 0; times--) {
        int part = chance(d, 2);
        if (!find_spot(d, t, t->n - 1, part ? holds_part : is_open, &s)) continue;
        if (part) put_support(t, s.layer, s.row, s.column, 0);
        else put_support(t, s.layer + 1, s.row, s.column, 1);
    }
}

static void overlap(struct dice *d, struct trial *t)
{
    struct spot s;
    if (find_spot(d, t, t->n, is_part, &s)) put_support(t, s.layer, s.row, s.column, 1);
}

static unsigned changed_ring(struct dice *d, unsigned was)
{
    switch (below(d, 8)) {
    case 0:
    case 1: return was + 1;
    case 2:
    case 3: return was - 1;
    case 4: return 2 * was;
    case 5: return 65535;
    case 6: return (unsigned)between(d, 1, 4);
    default: return (unsigned)throw_dice(d);
    }
}

static void change_ring(struct dice *d, struct trial *t)
{
    struct spot s;
    if (find_spot(d, t, t->n - 1, has_ring, &s))
        ring_put(&t->lent[RING_PLANES], s.ring, changed_ring(d, ring_at(&t->lent[RING_PLANES], s.ring)));
}

static void add_ring(struct dice *d, struct trial *t)
{
    struct spot s;
    if (find_spot(d, t, t->n - 1, chance(d, 2) ? has_no_ring : is_shadow, &s))
        ring_put(&t->lent[RING_PLANES], s.ring, changed_ring(d, (unsigned)below(d, 3)));
}

static void swap_rings(struct dice *d, struct trial *t)
{
    struct spot a, b;
    struct buffer *rings = &t->lent[RING_PLANES];
    if (find_spot(d, t, t->n - 1, has_ring, &a) && find_spot(d, t, t->n - 1, has_ring, &b)) {
        unsigned kept = ring_at(rings, a.ring);
        ring_put(rings, a.ring, ring_at(rings, b.ring));
        ring_put(rings, b.ring, kept);
    }
}

/* Two neighbours whose rings are equal, or one apart, with nothing under either. */
static void lean(struct dice *d, struct trial *t)
{
    struct spot s;
    unsigned ring = chance(d, 4) ? 65534 : (unsigned)between(d, 1, 3);
    struct buffer *rings = &t->lent[RING_PLANES];
    uint64_t step = chance(d, 2) ? 1 : t->w;
    if (!find_spot(d, t, t->n - 1, is_shadow, &s) || s.ring + step >= rings->len) return;
    ring_put(rings, s.ring, ring);
    ring_put(rings, s.ring + step, ring + (unsigned)below(d, 2));
}

static void scribble_rings(struct dice *d, struct trial *t)
{
    unsigned most = chance(d, 2) ? 3 : 65536;
    for (uint64_t k = 0; k < t->lent[RING_PLANES].len; k++)
        if (chance(d, 3)) ring_put(&t->lent[RING_PLANES], k, (unsigned)below(d, most));
}

/* Gives up a ring and holds its pixel by support. */
static void support_for_ring(struct dice *d, struct trial *t)
{
    struct spot s;
    if (!find_spot(d, t, t->n - 1, has_ring, &s)) return;
    ring_put(&t->lent[RING_PLANES], s.ring, 0);
    add_column(t, s);
    t->marks |= FEWER_RINGS;
}

/* Rings and support of another overhang than the one that judges: another reach, or between the same whole pixels. */
static void plan_for_another_overhang(struct dice *d, struct trial *t)
{
    uint32_t pitch = t->pitch, overhang = t->overhang, reach = overhang / pitch;
    if (chance(d, 3))
        pick_settings_of(d, t, reach);
    else
        pick_settings_of(d, t, reach == 0 || (reach < 32 && chance(d, 2)) ? reach + 1 : reach - 1);
    plan_by_peer(t);
    t->pitch = pitch;
    t->overhang = overhang;
}

/* ---- Rings that are not the smallest ---- */

static int touches_seed(const struct trial *t, uint64_t plane, uint64_t row, uint64_t column)
{
    for (uint64_t r = row > 0 ? row - 1 : 0; r <= row + 1 && r < t->h; r++)
        for (uint64_t c = column > 0 ? column - 1 : 0; c <= column + 1 && c < t->w; c++)
            if (part_at(t, plane, r, c) && part_at(t, plane + 1, r, c)) return 1;
    return 0;
}

/* Goes from pixel to pixel as long as it can, each ring one more than the one before. `todo` has the excused pixels still without. */
static void wander(struct dice *d, struct trial *t, uint64_t plane, uint8_t *todo, uint64_t from)
{
    uint64_t *path = room(8 * t->w * t->h), length = 0;
    uint64_t base = plane * t->h * t->w;
    path[length++] = from;
    todo[from] = 0;
    ring_put(&t->lent[RING_PLANES], base + from, 1);
    while (length > 0) {
        uint64_t at = path[length - 1], row = at / t->w, column = at % t->w;
        int moved = 0;
        for (uint64_t k = 0, first = below(d, 9); k < 9 && !moved; k++) {
            uint64_t r = row + (k + first) % 9 / 3, c = column + (k + first) % 3; /* one more than the neighbour's */
            if (r < 1 || r > t->h || c < 1 || c > t->w || !todo[(r - 1) * t->w + c - 1]) continue;
            path[length] = (r - 1) * t->w + c - 1;
            todo[path[length]] = 0;
            ring_put(&t->lent[RING_PLANES], base + path[length], ring_at(&t->lent[RING_PLANES], base + at) + 1u);
            length++;
            moved = 1;
        }
        if (!moved) length--;
    }
    free(path);
}

/* Numbers the excused pixels afresh, depth first, so that most rings are larger than they need be. */
static void enlarge_rings(struct dice *d, struct trial *t)
{
    uint64_t pixels = t->w * t->h;
    uint8_t *todo = room(pixels), *old = room(t->lent[RING_PLANES].held);
    memcpy(old, t->lent[RING_PLANES].bytes, t->lent[RING_PLANES].held);
    for (uint64_t plane = 0; plane + 1 < t->n; plane++) {
        for (uint64_t k = 0; k < pixels; k++) todo[k] = ring_at(&t->lent[RING_PLANES], plane * pixels + k) != 0;
        for (uint64_t k = 0; k < pixels; k++)
            if (todo[k] && touches_seed(t, plane, k / t->w, k % t->w)) wander(d, t, plane, todo, k);
    }
    if (memcmp(old, t->lent[RING_PLANES].bytes, t->lent[RING_PLANES].held) != 0) t->marks |= LARGER_RINGS;
    free(old);
    free(todo);
}

void make_check(struct dice *d, struct trial *t)
{
    typedef void change(struct dice *, struct trial *);
    static change *const changes[] = {add_held_support, add_held_support, add_any_support, take_support, take_support, leave_unheld,
                                      leave_unheld, overlap, change_ring, change_ring, change_ring, add_ring, swap_rings, lean,
                                      scribble_rings, support_for_ring, plan_for_another_overhang, enlarge_rings, enlarge_rings};
    uint64_t times = below(d, 4);
    draw_lent(d, t);
    plan_by_peer(t);
    if (times == 0) t->marks |= AS_PLANNED;
    while (times-- > 0) changes[below(d, sizeof changes / sizeof *changes)](d, t);
    if (chance(d, 12)) {
        lend_scribbled(d, t, SUPPORT_STACK, stack_bytes_of(t));
        t->marks = 0;
    }
    if (chance(d, 4)) spoil(d, t);
}
