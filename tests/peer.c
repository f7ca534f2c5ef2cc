/* The peer's calls: a pixel at a time, near by trying every pixel of the square around, rings by breadth-first search, closing by the nearest
 * pixel of each row around, posts by a search from each of them. */
#include "peer.h"

#include <inttypes.h>
#include <stdio.h>
#include <stdlib.h>

/* ---- Images and numbers ---- */

struct size {
    uint64_t w, h, n;
};

static struct size make_size(uint64_t w, uint64_t h, uint64_t n)
{
    struct size s;
    s.w = w;
    s.h = h;
    s.n = n;
    return s;
}

static uint64_t row_bytes(struct size s) { return (s.w + 7) / 8; }
static uint64_t rows(struct size s) { return s.n * s.h; }
static uint64_t stack_bytes(struct size s) { return rows(s) * row_bytes(s); }
static uint64_t ring_count(struct size s) { return (s.n - 1) * s.w * s.h; }

static const uint8_t bit_of_column[8] = {128, 64, 32, 16, 8, 4, 2, 1};

static uint64_t byte_index(struct size s, uint64_t layer, uint64_t row, uint64_t column)
{
    return (layer * s.h + row) * row_bytes(s) + column / 8;
}

static int filled(const uint8_t *stack, struct size s, uint64_t layer, uint64_t row, uint64_t column)
{
    return (stack[byte_index(s, layer, row, column)] & bit_of_column[column % 8]) != 0;
}

static void fill(uint8_t *stack, struct size s, uint64_t layer, uint64_t row, uint64_t column)
{
    stack[byte_index(s, layer, row, column)] |= bit_of_column[column % 8];
}

static void set(uint8_t *stack, struct size s, uint64_t layer, uint64_t row, uint64_t column, int on)
{
    stack[byte_index(s, layer, row, column)] &= (uint8_t)~bit_of_column[column % 8];
    if (on) fill(stack, s, layer, row, column);
}

static uint64_t ring_index(struct size s, uint64_t plane, uint64_t row, uint64_t column)
{
    return (plane * s.h + row) * s.w + column;
}

/* ---- Answers ---- */

static kg_answer refused(unsigned number) { return number; }
static kg_answer value(uint64_t v) { return v * 65536; }

static kg_answer refused_at(unsigned number, uint64_t layer, uint64_t row, uint64_t column)
{
    return number + 65536 * (layer + 65536 * (row + 65536 * column));
}

/* ---- Refusals 1, 2, 3 and the reach rule ---- */

static unsigned size_refusal(struct size s)
{
    if (s.w < 1 || s.w > 256) return 1;
    if (s.h < 1 || s.h > 256) return 1;
    if (s.n < 1 || s.n > 512) return 1;
    return 0;
}

static unsigned setting_refusal(uint32_t pitch, uint32_t overhang)
{
    if (pitch < 10 || pitch > 1000) return 2;
    if (overhang > 10000) return 2;
    if (overhang / pitch > 32) return 3;
    return 0;
}

kg_answer peer_reach(uint32_t pitch, uint32_t overhang)
{
    unsigned number = setting_refusal(pitch, overhang);
    if (number != 0) return refused(number);
    return value(overhang / pitch);
}

static unsigned size_or_setting_refusal(struct size s, uint32_t pitch, uint32_t overhang)
{
    unsigned number = size_refusal(s);
    if (number != 0) return number;
    return setting_refusal(pitch, overhang);
}

/* ---- Refusals 7 and 8 ---- */

/* The number with the first row, by layer and then row, whose padding is set; nothing where none is. A row has no column. */
static kg_answer find_padding(unsigned number, const uint8_t *stack, struct size s)
{
    for (uint64_t layer = 0; layer < s.n; layer++)
        for (uint64_t row = 0; row < s.h; row++)
            for (uint64_t column = s.w; column < 8 * row_bytes(s); column++)
                if (filled(stack, s, layer, row, column)) return refused_at(number, layer, row, 0);
    return value(0);
}

/* ---- Planes of a pair ---- */

/* The pair of layers below and below + 1 of a part. */
struct pair {
    struct size s;
    const uint8_t *part;
    uint64_t below;
    int64_t pitch, overhang;
};

static int in_shadow(struct pair p, uint64_t row, uint64_t column)
{
    return filled(p.part, p.s, p.below + 1, row, column) && !filled(p.part, p.s, p.below, row, column);
}

static int is_seed(struct pair p, uint64_t row, uint64_t column)
{
    return filled(p.part, p.s, p.below + 1, row, column) && filled(p.part, p.s, p.below, row, column);
}

static int inside(struct size s, int64_t row, int64_t column)
{
    return row >= 0 && row < (int64_t)s.h && column >= 0 && column < (int64_t)s.w;
}

/* A whole number is at most t * t / (p * p) rounded down exactly where it is at most t * t / (p * p): so nothing is divided. */
static int within(struct pair p, int64_t dr, int64_t dc)
{
    return (dr * dr + dc * dc) * p.pitch * p.pitch <= p.overhang * p.overhang;
}

static int is_near(struct pair p, uint64_t row, uint64_t column)
{
    int64_t around = p.overhang / p.pitch + 1; /* no pixel further away by rows or columns is near */
    for (int64_t dr = -around; dr <= around; dr++)
        for (int64_t dc = -around; dc <= around; dc++) {
            int64_t r = (int64_t)row + dr, c = (int64_t)column + dc;
            if (!within(p, dr, dc)) continue;
            if (!inside(p.s, r, c)) continue;
            if (filled(p.part, p.s, p.below, (uint64_t)r, (uint64_t)c)) return 1;
        }
    return 0;
}

/* The eight neighbours of a pixel that exist, as steps of row and column. */
static const int step_row[8] = {-1, -1, -1, 0, 0, 1, 1, 1};
static const int step_column[8] = {-1, 0, 1, -1, 1, -1, 0, 1};

static int neighbour(struct size s, uint64_t row, uint64_t column, int k, uint64_t *to_row, uint64_t *to_column)
{
    int64_t r = (int64_t)row + step_row[k], c = (int64_t)column + step_column[k];
    if (!inside(s, r, c)) return 0;
    *to_row = (uint64_t)r;
    *to_column = (uint64_t)c;
    return 1;
}

/* ---- Planning ---- */

static void *room_for(uint64_t count, size_t width)
{
    void *room = calloc((size_t)count + 1, width);
    if (room == NULL) {
        fputs("peer: out of memory\n", stderr);
        abort();
    }
    return room;
}

/* Breadth-first search: the queue begins with all seeds, and a near shadow pixel that is met first from a pixel of ring k (a seed
 * counting as 0) gets ring k + 1. */
static void grow_rings(struct pair p, uint16_t *plane)
{
    uint64_t *queue = room_for(p.s.w * p.s.h, sizeof *queue);
    uint64_t head = 0, tail = 0;
    for (uint64_t row = 0; row < p.s.h; row++)
        for (uint64_t column = 0; column < p.s.w; column++) {
            plane[row * p.s.w + column] = 0;
            if (is_seed(p, row, column)) queue[tail++] = row * p.s.w + column;
        }
    while (head < tail) {
        uint64_t from = queue[head++];
        for (int k = 0; k < 8; k++) {
            uint64_t row, column;
            if (!neighbour(p.s, from / p.s.w, from % p.s.w, k, &row, &column)) continue;
            if (!in_shadow(p, row, column) || plane[row * p.s.w + column] != 0) continue;
            if (!is_near(p, row, column)) continue;
            plane[row * p.s.w + column] = (uint16_t)(plane[from] + 1);
            queue[tail++] = row * p.s.w + column;
        }
    }
    free(queue);
}

/* S(i) = shadow pixels not excused, with S(i+1), without P(i). */
static void plan_support(struct pair p, const uint16_t *plane, uint8_t *support)
{
    for (uint64_t row = 0; row < p.s.h; row++)
        for (uint64_t column = 0; column < p.s.w; column++) {
            int excused = plane[row * p.s.w + column] != 0;
            int wanted = (in_shadow(p, row, column) && !excused) || filled(support, p.s, p.below + 1, row, column);
            if (wanted && !filled(p.part, p.s, p.below, row, column)) fill(support, p.s, p.below, row, column);
        }
}

static void plan(struct size s, uint32_t pitch, uint32_t overhang, const uint8_t *part, uint8_t *support, uint16_t *rings)
{
    for (uint64_t k = 0; k < stack_bytes(s); k++) support[k] = 0;
    for (uint64_t above = s.n - 1; above > 0; above--) {
        struct pair p;
        uint16_t *plane = rings + ring_index(s, above - 1, 0, 0);
        p.s = s;
        p.part = part;
        p.below = above - 1;
        p.pitch = pitch;
        p.overhang = overhang;
        grow_rings(p, plane);
        plan_support(p, plane, support);
    }
}

kg_answer peer_plan(uint64_t w, uint64_t h, uint64_t n, uint32_t pitch, uint32_t overhang,
                    const uint8_t *part, uint64_t part_len,
                    uint8_t *support, uint64_t support_len,
                    uint16_t *rings, uint64_t rings_len)
{
    struct size s = make_size(w, h, n);
    unsigned number = size_or_setting_refusal(s, pitch, overhang);
    if (number != 0) return refused(number);
    if (part_len != stack_bytes(s)) return refused(4);
    if (support_len != stack_bytes(s)) return refused(5);
    if (rings_len != ring_count(s)) return refused(6);
    kg_answer padding = find_padding(7, part, s);
    if (padding != 0) return padding;
    plan(s, pitch, overhang, part, support, rings);
    return value(0);
}

/* ---- Cleaning ---- */

/* How many columns away from a pixel the nearest of its row is that is filled, or is not, as wanted; one more than the gap where none is
 * so near. */
static uint64_t columns_away(const uint8_t *stack, struct size s, uint64_t layer, uint64_t row, uint64_t column, int wanted, uint64_t gap)
{
    for (uint64_t away = 0; away <= gap; away++) {
        if (away <= column && filled(stack, s, layer, row, column - away) == wanted) return away;
        if (column + away < s.w && filled(stack, s, layer, row, column + away) == wanted) return away;
    }
    return gap + 1;
}

static void look_along_rows(const uint8_t *stack, struct size s, uint64_t layer, int wanted, uint64_t gap, uint8_t *away)
{
    for (uint64_t row = 0; row < s.h; row++)
        for (uint64_t column = 0; column < s.w; column++)
            away[row * s.w + column] = (uint8_t)columns_away(stack, s, layer, row, column, wanted, gap);
}

/* Whether what was looked for along the rows is in the disc about a pixel: in each row of the image that the disc has, the nearest
 * decides. */
static int in_disc(struct size s, const uint8_t *away, uint64_t row, uint64_t column, uint64_t gap)
{
    uint64_t first = row < gap ? 0 : row - gap;
    for (uint64_t r = first; r <= row + gap && r < s.h; r++) {
        uint64_t dr = r < row ? row - r : r - row, dc = away[r * s.w + column];
        if (dr * dr + dc * dc <= gap * gap) return 1;
    }
    return 0;
}

/* Dilation: the pixels of the image with a filled pixel in the disc about them. */
static void dilate(const uint8_t *from, struct size s, uint64_t layer, uint64_t gap, uint8_t *away, uint8_t *to)
{
    look_along_rows(from, s, layer, 1, gap, away);
    for (uint64_t row = 0; row < s.h; row++)
        for (uint64_t column = 0; column < s.w; column++) set(to, s, layer, row, column, in_disc(s, away, row, column, gap));
}

/* Erosion: the pixels with every pixel of the image in the disc about them filled, so with none that is not. */
static void erode(uint8_t *stack, struct size s, uint64_t layer, uint64_t gap, uint8_t *away)
{
    look_along_rows(stack, s, layer, 0, gap, away);
    for (uint64_t row = 0; row < s.h; row++)
        for (uint64_t column = 0; column < s.w; column++) set(stack, s, layer, row, column, !in_disc(s, away, row, column, gap));
}

/* F(i) = F(i+1) with the closing of S(i), which stands in its place so far, without the excused pixels, without P(i). */
static void join_and_cut(struct size s, uint64_t layer, const uint8_t *part, const uint16_t *plane, uint8_t *cleaned)
{
    for (uint64_t row = 0; row < s.h; row++)
        for (uint64_t column = 0; column < s.w; column++) {
            int joined = filled(cleaned, s, layer, row, column) || filled(cleaned, s, layer + 1, row, column);
            int excused = plane[row * s.w + column] != 0;
            set(cleaned, s, layer, row, column, joined && !excused && !filled(part, s, layer, row, column));
        }
}

static void clean(struct size s, uint64_t gap, const uint8_t *part, const uint8_t *support, const uint16_t *rings, uint8_t *cleaned)
{
    uint8_t *away = room_for(s.w * s.h, sizeof *away);
    for (uint64_t k = 0; k < stack_bytes(s); k++) cleaned[k] = 0;
    for (uint64_t above = s.n - 1; above > 0; above--) {
        dilate(support, s, above - 1, gap, away, cleaned);
        erode(cleaned, s, above - 1, gap, away);
        join_and_cut(s, above - 1, part, rings + ring_index(s, above - 1, 0, 0), cleaned);
    }
    free(away);
}

kg_answer peer_clean(uint64_t w, uint64_t h, uint64_t n, uint32_t pitch, uint32_t overhang, uint64_t gap,
                     const uint8_t *part, uint64_t part_len,
                     uint8_t *support, uint64_t support_len,
                     uint16_t *rings, uint64_t rings_len,
                     uint8_t *cleaned, uint64_t cleaned_len)
{
    struct size s = make_size(w, h, n);
    unsigned number = size_or_setting_refusal(s, pitch, overhang);
    if (number != 0) return refused(number);
    if (gap > 32) return refused(18);
    if (part_len != stack_bytes(s)) return refused(4);
    if (support_len != stack_bytes(s) || cleaned_len != stack_bytes(s)) return refused(5);
    if (rings_len != ring_count(s)) return refused(6);
    kg_answer padding = find_padding(7, part, s);
    if (padding != 0) return padding;
    plan(s, pitch, overhang, part, support, rings);
    clean(s, gap, part, support, rings, cleaned);
    return value(0);
}

/* ---- Posts ---- */

/* One layer's work: which of its pixels were left by the overhang and remain, row by row, and room for a search. */
struct scan {
    struct size s;
    int64_t pitch, radius;
    uint8_t *remains;
    uint64_t *queue;
};

/* Whether a pixel is within the radius of one of the posts; nothing is divided, as for an overhang. */
static int within_radius(const struct scan *c, const uint64_t *posts, uint64_t count, uint64_t row, uint64_t column)
{
    for (uint64_t k = 0; k < count; k++) {
        int64_t dr = (int64_t)(posts[k] / c->s.w) - (int64_t)row, dc = (int64_t)(posts[k] % c->s.w) - (int64_t)column;
        if ((dr * dr + dc * dc) * c->pitch * c->pitch <= c->radius * c->radius) return 1;
    }
    return 0;
}

/* The posts take away their own pixels, and by breadth-first search from all of them each remaining pixel that is met and is within the
 * radius of one. */
static void take_away(const struct scan *c, const uint64_t *posts, uint64_t count)
{
    uint64_t head = 0, tail = 0;
    for (uint64_t k = 0; k < count; k++) {
        c->remains[posts[k]] = 0;
        c->queue[tail++] = posts[k];
    }
    while (head < tail) {
        uint64_t from = c->queue[head++];
        for (int k = 0; k < 8; k++) {
            uint64_t row, column;
            if (!neighbour(c->s, from / c->s.w, from % c->s.w, k, &row, &column)) continue;
            if (!c->remains[row * c->s.w + column]) continue;
            if (!within_radius(c, posts, count, row, column)) continue;
            c->remains[row * c->s.w + column] = 0;
            c->queue[tail++] = row * c->s.w + column;
        }
    }
}

/* Marks what the overhang leaves: shadow pixels that are not excused. */
static void find_left(struct pair p, uint8_t *left)
{
    uint16_t *plane = room_for(p.s.w * p.s.h, sizeof *plane);
    grow_rings(p, plane);
    for (uint64_t row = 0; row < p.s.h; row++)
        for (uint64_t column = 0; column < p.s.w; column++)
            left[row * p.s.w + column] = in_shadow(p, row, column) && plane[row * p.s.w + column] == 0;
    free(plane);
}

/* Posts of the layer above go down except where they meet part. Answers how many, and lists them. */
static uint64_t go_down(struct pair p, uint8_t *posts, uint64_t *down)
{
    uint64_t count = 0;
    for (uint64_t row = 0; row < p.s.h; row++)
        for (uint64_t column = 0; column < p.s.w; column++) {
            if (!filled(posts, p.s, p.below + 1, row, column) || filled(p.part, p.s, p.below, row, column)) continue;
            fill(posts, p.s, p.below, row, column);
            down[count++] = row * p.s.w + column;
        }
    return count;
}

/* The posts of a layer: those gone down, which take away together, and new ones, each of which takes away by itself. */
static void place_posts(struct pair p, uint32_t radius, uint8_t *posts)
{
    uint64_t *down = room_for(p.s.w * p.s.h, sizeof *down);
    struct scan c;
    c.s = p.s;
    c.pitch = p.pitch;
    c.radius = radius;
    c.remains = room_for(p.s.w * p.s.h, sizeof *c.remains);
    c.queue = room_for(p.s.w * p.s.h, sizeof *c.queue);
    find_left(p, c.remains);
    take_away(&c, down, go_down(p, posts, down));
    for (uint64_t at = 0; at < p.s.w * p.s.h; at++) {
        if (!c.remains[at]) continue;
        fill(posts, p.s, p.below, at / p.s.w, at % p.s.w);
        take_away(&c, &at, 1);
    }
    free(c.queue);
    free(c.remains);
    free(down);
}

kg_answer peer_posts(uint64_t w, uint64_t h, uint64_t n, uint32_t pitch, uint32_t overhang, uint32_t radius,
                     const uint8_t *part, uint64_t part_len,
                     uint8_t *posts, uint64_t posts_len)
{
    struct size s = make_size(w, h, n);
    unsigned number = size_or_setting_refusal(s, pitch, overhang);
    if (number != 0) return refused(number);
    if (radius > 10000 || radius / pitch > 32) return refused(20);
    if (part_len != stack_bytes(s)) return refused(4);
    if (posts_len != stack_bytes(s)) return refused(5);
    kg_answer padding = find_padding(7, part, s);
    if (padding != 0) return padding;
    for (uint64_t k = 0; k < stack_bytes(s); k++) posts[k] = 0;
    for (uint64_t above = s.n - 1; above > 0; above--) {
        struct pair p;
        p.s = s;
        p.part = part;
        p.below = above - 1;
        p.pitch = pitch;
        p.overhang = overhang;
        place_posts(p, radius, posts);
    }
    return value(0);
}

/* ---- Judging ---- */

/* Whether a neighbour serves a pixel of ring k: it has ring k - 1, and for k = 1 it is a seed too. */
static int has_source(struct pair p, const uint16_t *plane, uint64_t row, uint64_t column, unsigned ring)
{
    for (int k = 0; k < 8; k++) {
        uint64_t r, c;
        if (!neighbour(p.s, row, column, k, &r, &c)) continue;
        if (plane[r * p.s.w + c] != ring - 1) continue;
        if (ring == 1 && !is_seed(p, r, c)) continue;
        return 1;
    }
    return 0;
}

static int is_bad_ring(struct pair p, const uint16_t *plane, uint64_t row, uint64_t column)
{
    unsigned ring = plane[row * p.s.w + column];
    if (ring == 0) return 0;
    return !in_shadow(p, row, column) || !is_near(p, row, column) || !has_source(p, plane, row, column, ring);
}

static int is_unheld(struct pair p, const uint8_t *support, const uint16_t *plane, uint64_t row, uint64_t column)
{
    int above = filled(p.part, p.s, p.below + 1, row, column) || filled(support, p.s, p.below + 1, row, column);
    int below = filled(p.part, p.s, p.below, row, column) || filled(support, p.s, p.below, row, column);
    return above && !below && plane[row * p.s.w + column] == 0;
}

/* What is told of an unheld pixel: 11 where it is part, 19 where it is support. */
static unsigned unheld_number(struct pair p, uint64_t row, uint64_t column)
{
    return filled(p.part, p.s, p.below + 1, row, column) ? 11 : 19;
}

static kg_answer find_overlap(struct size s, const uint8_t *part, const uint8_t *support)
{
    for (uint64_t layer = 0; layer < s.n; layer++)
        for (uint64_t row = 0; row < s.h; row++)
            for (uint64_t column = 0; column < s.w; column++)
                if (filled(part, s, layer, row, column) && filled(support, s, layer, row, column))
                    return refused_at(9, layer, row, column);
    return value(0);
}

enum sought { BAD_RING, UNHELD };

/* The first bad ring or the first unheld pixel of all pairs. */
static kg_answer find_in_pairs(enum sought sought, struct size s, uint32_t pitch, uint32_t overhang, const uint8_t *part,
                               const uint8_t *support, const uint16_t *rings)
{
    for (uint64_t below = 0; below + 1 < s.n; below++) {
        struct pair p;
        const uint16_t *plane = rings + ring_index(s, below, 0, 0);
        p.s = s;
        p.part = part;
        p.below = below;
        p.pitch = pitch;
        p.overhang = overhang;
        for (uint64_t row = 0; row < s.h; row++)
            for (uint64_t column = 0; column < s.w; column++) {
                int found = sought == BAD_RING ? is_bad_ring(p, plane, row, column) : is_unheld(p, support, plane, row, column);
                unsigned number = sought == BAD_RING ? 10 : unheld_number(p, row, column);
                if (found) return refused_at(number, below + 1, row, column);
            }
    }
    return value(0);
}

static kg_answer judge(struct size s, uint32_t pitch, uint32_t overhang, const uint8_t *part, const uint8_t *support,
                       const uint16_t *rings)
{
    kg_answer overlap = find_overlap(s, part, support);
    if (overlap != 0) return overlap;
    kg_answer bad_ring = find_in_pairs(BAD_RING, s, pitch, overhang, part, support, rings);
    if (bad_ring != 0) return bad_ring;
    return find_in_pairs(UNHELD, s, pitch, overhang, part, support, rings);
}

kg_answer peer_check(uint64_t w, uint64_t h, uint64_t n, uint32_t pitch, uint32_t overhang,
                     const uint8_t *part, uint64_t part_len,
                     const uint8_t *support, uint64_t support_len,
                     const uint16_t *rings, uint64_t rings_len)
{
    struct size s = make_size(w, h, n);
    unsigned number = size_or_setting_refusal(s, pitch, overhang);
    if (number != 0) return refused(number);
    if (part_len != stack_bytes(s)) return refused(4);
    if (support_len != stack_bytes(s)) return refused(5);
    if (rings_len != ring_count(s)) return refused(6);
    kg_answer padding = find_padding(7, part, s);
    if (padding == 0) padding = find_padding(8, support, s);
    if (padding != 0) return padding;
    return judge(s, pitch, overhang, part, support, rings);
}

/* ---- Reading a job file ---- */

struct job {
    struct size s;
    uint32_t pitch, overhang;
    int stored;
    uint64_t settings_at, part_at, support_at, rings_at;
};

static uint64_t number16(const uint8_t *file, uint64_t at) { return (uint64_t)file[at] * 256 + file[at + 1]; }
static uint64_t number32(const uint8_t *file, uint64_t at) { return number16(file, at) * 65536 + number16(file, at + 2); }

/* A file that is read from its first byte on. */
struct reader {
    const uint8_t *file;
    uint64_t len, at;
};

/* Reads a count, which must be one of two: 12 where it is cut short, 13 where it is neither. */
static unsigned read_count(struct reader *r, uint64_t one, uint64_t other, uint64_t *count)
{
    if (r->len - r->at < 4) return 12;
    *count = number32(r->file, r->at);
    r->at += 4;
    return *count == one || *count == other ? 0 : 13;
}

static unsigned read_contents(struct reader *r, uint64_t bytes, uint64_t *begins)
{
    *begins = r->at;
    if (r->len - r->at < bytes) return 12;
    r->at += bytes;
    return 0;
}

static unsigned read_settings(struct reader *r, struct job *job)
{
    uint64_t count;
    unsigned number = read_count(r, 5, 5, &count);
    if (number == 0) number = read_contents(r, 10, &job->settings_at);
    if (number != 0) return number;
    job->s = make_size(number16(r->file, 4), number16(r->file, 6), number16(r->file, 8));
    job->pitch = (uint32_t)number16(r->file, 10);
    job->overhang = (uint32_t)number16(r->file, 12);
    return size_or_setting_refusal(job->s, job->pitch, job->overhang);
}

static unsigned read_part(struct reader *r, struct job *job)
{
    uint64_t count;
    unsigned number = read_count(r, rows(job->s), rows(job->s), &count);
    if (number != 0) return number;
    return read_contents(r, count * row_bytes(job->s), &job->part_at);
}

static unsigned read_support(struct reader *r, struct job *job)
{
    uint64_t count;
    unsigned number = read_count(r, 0, rows(job->s), &count);
    if (number != 0) return number;
    job->stored = count != 0;
    return read_contents(r, count * row_bytes(job->s), &job->support_at);
}

static uint64_t stored_rings(const struct job *job) { return job->stored ? ring_count(job->s) : 0; }

static unsigned read_rings(struct reader *r, struct job *job)
{
    uint64_t count;
    unsigned number = read_count(r, stored_rings(job), stored_rings(job), &count);
    if (number != 0) return number;
    return read_contents(r, count * 2, &job->rings_at);
}

static kg_answer read_job(const uint8_t *file, uint64_t len, struct job *job)
{
    struct reader r;
    r.file = file;
    r.len = len;
    r.at = 0;
    unsigned number = read_settings(&r, job);
    if (number == 0) number = read_part(&r, job);
    if (number == 0) number = read_support(&r, job);
    if (number == 0) number = read_rings(&r, job);
    if (number != 0) return refused(number);
    if (r.at < len) return refused(14);
    kg_answer padding = find_padding(7, file + job->part_at, job->s);
    if (padding == 0 && job->stored) padding = find_padding(8, file + job->support_at, job->s);
    return padding;
}

kg_answer peer_read(const uint8_t *file, uint64_t file_len, uint64_t *told, uint64_t told_len)
{
    struct job job;
    uint64_t all[KG_TOLD];
    kg_answer refusal = read_job(file, file_len, &job);
    if (refusal != 0) return refusal;
    all[KG_WIDTH] = job.s.w;
    all[KG_HEIGHT] = job.s.h;
    all[KG_LAYERS] = job.s.n;
    all[KG_PITCH] = job.pitch;
    all[KG_OVERHANG] = job.overhang;
    all[KG_STORED] = job.stored ? 1 : 0;
    all[KG_SETTINGS_AT] = job.settings_at;
    all[KG_PART_AT] = job.part_at;
    all[KG_SUPPORT_AT] = job.support_at;
    all[KG_RINGS_AT] = job.rings_at;
    for (uint64_t k = 0; k < KG_TOLD && k < told_len; k++) told[k] = all[k];
    return value(0);
}

static kg_stretch stretch(uint64_t offset, uint64_t length) { return offset * 4294967296u + length; }

kg_stretch peer_part(const uint8_t *file, uint64_t file_len)
{
    struct job job;
    if (read_job(file, file_len, &job) != 0) return 0;
    return stretch(job.part_at, stack_bytes(job.s));
}

kg_stretch peer_support(const uint8_t *file, uint64_t file_len)
{
    struct job job;
    if (read_job(file, file_len, &job) != 0) return 0;
    if (!job.stored) return 0;
    return stretch(job.support_at, stack_bytes(job.s));
}

kg_answer peer_copy_rings(const uint8_t *file, uint64_t file_len, uint16_t *rings, uint64_t rings_len)
{
    struct job job;
    kg_answer refusal = read_job(file, file_len, &job);
    if (refusal != 0) return refusal;
    if (rings_len != stored_rings(&job)) return refused(6);
    for (uint64_t k = 0; k < rings_len; k++) rings[k] = (uint16_t)number16(file, job.rings_at + 2 * k);
    return value(0);
}

/* ---- Writing a job file ---- */

struct writer {
    uint8_t *out;
    uint64_t at;
};

static void put8(struct writer *to, uint64_t number) { to->out[to->at++] = (uint8_t)(number % 256); }

static void put16(struct writer *to, uint64_t number)
{
    put8(to, number / 256);
    put8(to, number);
}

static void put32(struct writer *to, uint64_t number)
{
    put16(to, number / 65536);
    put16(to, number);
}

static void put_settings(struct writer *to, struct size s, uint32_t pitch, uint32_t overhang)
{
    put32(to, 5);
    put16(to, s.w);
    put16(to, s.h);
    put16(to, s.n);
    put16(to, pitch);
    put16(to, overhang);
}

static void put_rows(struct writer *to, const uint8_t *stack, uint64_t bytes, struct size s)
{
    put32(to, bytes / row_bytes(s));
    for (uint64_t k = 0; k < bytes; k++) put8(to, stack[k]);
}

static void put_rings(struct writer *to, const uint16_t *rings, uint64_t count)
{
    put32(to, count);
    for (uint64_t k = 0; k < count; k++) put16(to, rings[k]);
}

kg_answer peer_write(uint64_t w, uint64_t h, uint64_t n, uint32_t pitch, uint32_t overhang,
                     const uint8_t *part, uint64_t part_len,
                     const uint8_t *support, uint64_t support_len,
                     const uint16_t *rings, uint64_t rings_len,
                     uint8_t *out, uint64_t out_len)
{
    struct size s = make_size(w, h, n);
    unsigned number = size_or_setting_refusal(s, pitch, overhang);
    if (number != 0) return refused(number);
    if (part_len != stack_bytes(s)) return refused(4);
    if (support_len != 0 && support_len != stack_bytes(s)) return refused(5);
    if (rings_len != (support_len == 0 ? 0 : ring_count(s))) return refused(6);
    kg_answer padding = find_padding(7, part, s);
    if (padding == 0 && support_len != 0) padding = find_padding(8, support, s);
    if (padding != 0) return padding;
    uint64_t length = 4 + 10 + 4 + part_len + 4 + support_len + 4 + 2 * rings_len;
    if (length > 4294967295u) return refused(15);
    if (out_len < length) return refused(16);
    struct writer to;
    to.out = out;
    to.at = 0;
    put_settings(&to, s, pitch, overhang);
    put_rows(&to, part, part_len, s);
    put_rows(&to, support, support_len, s);
    put_rings(&to, rings, rings_len);
    return value(length);
}

/* ---- The report program ---- */

struct text {
    char *out;
    uint64_t cap, len;
};

static void put_line(struct text *t, const char *line)
{
    for (; *line != 0; line++, t->len++)
        if (t->len < t->cap) t->out[t->len] = *line;
}

static uint64_t count_layer(const uint8_t *stack, struct size s, uint64_t layer)
{
    uint64_t count = 0;
    for (uint64_t row = 0; row < s.h; row++)
        for (uint64_t column = 0; column < s.w; column++)
            if (filled(stack, s, layer, row, column)) count++;
    return count;
}

static uint64_t count_excused(const uint16_t *rings, struct size s, uint64_t plane)
{
    uint64_t count = 0;
    for (uint64_t k = 0; k < s.w * s.h; k++)
        if (rings[ring_index(s, plane, 0, 0) + k] != 0) count++;
    return count;
}

static void report_job(struct text *t, const struct job *job, const uint8_t *part)
{
    struct size s = job->s;
    uint32_t reach = job->overhang / job->pitch;
    uint8_t *support = room_for(stack_bytes(s), sizeof *support);
    uint16_t *rings = room_for(ring_count(s), sizeof *rings);
    char line[128];
    plan(s, job->pitch, job->overhang, part, support, rings);
    snprintf(line, sizeof line, "job %" PRIu64 " %" PRIu64 " %" PRIu64 " reach %" PRIu32 "\n", s.w, s.h, s.n, reach);
    put_line(t, line);
    for (uint64_t left = s.n; left > 0; left--) {
        uint64_t layer = left - 1;
        uint64_t excused = left == s.n ? 0 : count_excused(rings, s, layer);
        snprintf(line, sizeof line, "%" PRIu64 " %" PRIu64 " %" PRIu64 " %" PRIu64 "\n", layer, count_layer(part, s, layer),
                 count_layer(support, s, layer), excused);
        put_line(t, line);
    }
    free(support);
    free(rings);
}

/* The number, and for padding its layer and row. */
static void report_refusal(struct text *t, kg_answer refusal)
{
    unsigned number = kg_number(refusal);
    char line[64];
    if (number == 7 || number == 8)
        snprintf(line, sizeof line, "refused %u %u %u\n", number, kg_layer(refusal), kg_row(refusal));
    else
        snprintf(line, sizeof line, "refused %u\n", number);
    put_line(t, line);
}

uint64_t peer_report(const uint8_t *file, uint64_t file_len, char *out, uint64_t cap)
{
    struct job job;
    struct text t;
    kg_answer refusal = file_len > 65536 ? refused(17) : read_job(file, file_len, &job);
    t.out = out;
    t.cap = cap;
    t.len = 0;
    if (refusal == 0 && ring_count(job.s) > 32768) refusal = refused(17);
    if (refusal != 0)
        report_refusal(&t, refusal);
    else
        report_job(&t, &job, file + job.part_at);
    return t.len;
}
