/* The peer, which the limits are held against: planning and judging in plain C, written for speed with rows of bits. What makes it fast:
 *
 * - A row is four words of 64 pixels, column 0 being the highest bit of the first word. Shadow, seeds and support are found for a whole
 *   row at a time, and each plane is turned into rows once.
 * - Near pixels are found only for rows that have shadow, and only in pairs that have both shadow and seeds: each row of the lower part
 *   is widened step by step, from the edge of the disc to its middle, and joined to the rows that it reaches.
 * - Ring 1 is given by rows. Further rings come from a queue of pixels over a grid of marks, one byte for each near shadow pixel that has
 *   no ring yet; the grid has a border, so a search has no edges to mind.
 * - The checker passes over rows without rings. A ring beside the part is near wherever the bound is at least 2, so near pixels are found
 *   only where some ring lies further away.
 */
#include "peers.h"

#include <string.h>

enum { MOST = 256, WORDS = 4, REACH = 32, GRID = MOST + 2 };

/* What works on rows is inlined, so that rows stay in registers. Where a loop is unrolled, the compiler does not do it by itself. */
#define INLINE static inline __attribute__((always_inline))

/* ---- Rows ---- */

typedef struct {
    uint64_t v[WORDS];
} row;

INLINE row row_or(row a, row b)
{
    for (int k = 0; k < WORDS; k++) a.v[k] |= b.v[k];
    return a;
}

INLINE row row_and(row a, row b)
{
    for (int k = 0; k < WORDS; k++) a.v[k] &= b.v[k];
    return a;
}

INLINE row row_but(row a, row b)
{
    for (int k = 0; k < WORDS; k++) a.v[k] &= ~b.v[k];
    return a;
}

INLINE int row_any(row a) { return (a.v[0] | a.v[1] | a.v[2] | a.v[3]) != 0; }

INLINE uint64_t bit_of(size_t x) { return 1ull << (63 - x % 64); }

INLINE row load_row(const uint8_t *s, size_t bytes)
{
    row r = {{0}};
    if (bytes == sizeof r)
        for (int k = 0; k < WORDS; k++) {
            memcpy(&r.v[k], s + 8 * k, 8);
            r.v[k] = __builtin_bswap64(r.v[k]);
        }
    else
        for (size_t k = 0; k < bytes; k++) r.v[k / 8] |= (uint64_t)s[k] << (56 - 8 * (k % 8));
    return r;
}

INLINE void store_row(uint8_t *s, row r, size_t bytes)
{
    if (bytes == sizeof r)
        for (int k = 0; k < WORDS; k++) {
            r.v[k] = __builtin_bswap64(r.v[k]);
            memcpy(s + 8 * k, &r.v[k], 8);
        }
    else
        for (size_t k = 0; k < bytes; k++) s[k] = (uint8_t)(r.v[k / 8] >> (56 - 8 * (k % 8)));
}

/* The row with each pixel one column to the left and to the right as well. */
INLINE row spread(row a)
{
    row r;
    r.v[0] = a.v[0] | a.v[0] << 1 | a.v[1] >> 63 | a.v[0] >> 1;
    r.v[1] = a.v[1] | a.v[1] << 1 | a.v[2] >> 63 | a.v[1] >> 1 | a.v[0] << 63;
    r.v[2] = a.v[2] | a.v[2] << 1 | a.v[3] >> 63 | a.v[2] >> 1 | a.v[1] << 63;
    r.v[3] = a.v[3] | a.v[3] << 1 | a.v[3] >> 1 | a.v[2] << 63;
    return r;
}

/* ---- Settings and refusals ---- */

struct stack {
    size_t w, h, n, bytes, plane;  /* bytes of a row and of a plane */
    size_t reach, bound;           /* the disc's rows to each side, and its squared radius */
    size_t half[REACH + 1];        /* the disc runs half[d] columns to each side in a row d rows away */
    row wide;                      /* the W columns */
};

static kg_answer told(unsigned number, size_t layer, size_t y, size_t x)
{
    return number | (kg_answer)layer << 16 | (kg_answer)y << 32 | (kg_answer)x << 48;
}

/* The first row whose padding is set, with its number; or 0. */
static kg_answer bad_padding(const struct stack *s, const uint8_t *stack, unsigned number)
{
    unsigned pad = (1u << (s->bytes * 8 - s->w)) - 1;
    if (pad == 0) return 0;
    for (size_t k = 0; k < s->n * s->h; k++)
        if ((stack[k * s->bytes + s->bytes - 1] & pad) != 0) return told(number, k / s->h, k % s->h, 0);
    return 0;
}

static unsigned settle(struct stack *s, uint64_t w, uint64_t h, uint64_t n, uint32_t pitch, uint32_t overhang)
{
    if (w < 1 || w > MOST || h < 1 || h > MOST || n < 1 || n > 512) return 1;
    if (pitch < 10 || pitch > 1000 || overhang > 10000) return 2;
    if (overhang / pitch > REACH) return 3;
    *s = (struct stack){.w = w, .h = h, .n = n, .bytes = (w + 7) / 8, .plane = h * ((w + 7) / 8), .reach = overhang / pitch,
                        .bound = overhang * overhang / (pitch * pitch)};
    for (size_t d = 0; d <= s->reach; d++)
        while ((s->half[d] + 1) * (s->half[d] + 1) + d * d <= s->bound) s->half[d]++;
    for (size_t x = 0; x < w; x++) s->wide.v[x / 64] |= bit_of(x);
    return 0;
}

static kg_answer refuse(const struct stack *s, const uint8_t *part, uint64_t part_len, uint64_t support_len, uint64_t rings_len)
{
    if (part_len != s->n * s->plane) return 4;
    if (support_len != s->n * s->plane) return 5;
    if (rings_len != (s->n - 1) * s->w * s->h) return 6;
    return bad_padding(s, part, 7);
}

/* ---- A pair of layers ---- */

/* The planes of a pair, by rows, and what the search for rings works on. */
struct pair {
    row planes[2][MOST], shadow[MOST], seeds[MOST], free[MOST], near[MOST], got[MOST];
    row *lower, *upper;         /* the two planes of the part */
    uint8_t marks[GRID * GRID]; /* pixel (y, x) is mark (y + 1) * GRID + x + 1; all are 0 between searches */
    uint32_t queue[MOST * MOST];
};

static struct pair scratch;

INLINE void swap_planes(struct pair *p)
{
    row *lower = p->lower;
    p->lower = p->upper;
    p->upper = lower;
}

/* The pixels of a plane and those beside them, in row y. */
INLINE row around(const row *plane, size_t y, size_t h)
{
    row a = plane[y];
    if (y > 0) a = row_or(a, plane[y - 1]);
    if (y + 1 < h) a = row_or(a, plane[y + 1]);
    return spread(a);
}

/* Joins what row y of the lower part reaches to the rows of near that have a pixel in `wanted`. */
INLINE void reach_rows(struct pair *p, const struct stack *s, const row *wanted, size_t y)
{
    row r = p->lower[y];
    size_t width = 0;
    for (size_t d = s->reach + 1; d-- > 0;) {
        for (; width < s->half[d]; width++) r = spread(r);
        if (y >= d && row_any(wanted[y - d])) p->near[y - d] = row_or(p->near[y - d], r);
        if (d > 0 && y + d < s->h && row_any(wanted[y + d])) p->near[y + d] = row_or(p->near[y + d], r);
    }
}

/* The near pixels of the rows that have a pixel in `wanted`. */
static void find_near(struct pair *p, const struct stack *s, const row *wanted)
{
    size_t first = s->h, last = 0;
    for (size_t y = 0; y < s->h; y++) {
        p->near[y] = (row){{0}};
        if (!row_any(wanted[y])) continue;
        if (first == s->h) first = y;
        last = y;
    }
    if (first == s->h) return;
    for (size_t y = first < s->reach ? 0 : first - s->reach; y < s->h && y <= last + s->reach; y++)
        if (row_any(p->lower[y])) reach_rows(p, s, wanted, y);
    for (size_t y = first; y <= last; y++) p->near[y] = row_and(p->near[y], s->wide);
}

/* ---- Rings ---- */

INLINE void set_marks(uint8_t *marks, row r, uint8_t mark)
{
    for (size_t k = 0; k < WORDS; k++)
        while (r.v[k] != 0) {
            size_t x = (size_t)__builtin_clzll(r.v[k]);
            r.v[k] &= ~bit_of(x);
            marks[64 * k + x] = mark;
        }
}

/* Ring 1: the free pixels beside seeds. Marks the others. Answers the end of the queue. */
static size_t first_rings(struct pair *p, uint16_t *rings, size_t w, size_t h)
{
    size_t tail = 0;
    for (size_t y = 0; y < h; y++) {
        p->got[y] = (row){{0}};
        if (!row_any(p->free[y])) continue;
        row first = row_and(around(p->seeds, y, h), p->free[y]);
        size_t at = (y + 1) * GRID + 1;
        set_marks(p->marks + at, row_but(p->free[y], first), 1);
        p->got[y] = first;
        for (size_t k = 0; k < WORDS; k++)
            while (first.v[k] != 0) {
                size_t x = (size_t)__builtin_clzll(first.v[k]);
                first.v[k] &= ~bit_of(x);
                rings[y * w + 64 * k + x] = 1;
                p->queue[tail++] = (uint32_t)(at + 64 * k + x);
            }
    }
    return tail;
}

/* The rings of a pair, breadth first: a marked pixel beside one of ring k gets ring k + 1 and stands in the queue itself. */
static void grow(struct pair *p, uint16_t *rings, size_t w, size_t h)
{
    size_t tail = first_rings(p, rings, w, h);
    for (size_t head = 0; head < tail; head++) {
        size_t at = p->queue[head], y = at / GRID - 1, x = at % GRID - 1;
        uint16_t v = (uint16_t)(rings[y * w + x] + 1);
#pragma GCC unroll 3
        for (size_t r = 0; r < 3; r++)
#pragma GCC unroll 3
            for (size_t c = 0; c < 3; c++) {
                size_t to = at + r * GRID + c - GRID - 1;
                if (p->marks[to] == 0) continue;
                p->marks[to] = 0;
                rings[(y + r - 1) * w + x + c - 1] = v;
                p->got[y + r - 1].v[(x + c - 1) / 64] |= bit_of(x + c - 1);
                p->queue[tail++] = (uint32_t)to;
            }
    }
    for (size_t y = 0; y < h; y++) set_marks(p->marks + (y + 1) * GRID + 1, row_but(p->free[y], p->got[y]), 0);
}

/* ---- Planning ---- */

/* Turns the lower plane into rows, and finds shadow and seeds. Answers whether the pair has both. */
INLINE int open_pair(struct pair *p, const struct stack *s, const uint8_t *low)
{
    int shadow = 0, seeds = 0;
    for (size_t y = 0; y < s->h; y++) {
        row lower = load_row(low + y * s->bytes, s->bytes), upper = p->upper[y];
        p->lower[y] = lower;
        p->shadow[y] = row_but(upper, lower);
        p->seeds[y] = row_and(upper, lower);
        shadow |= row_any(p->shadow[y]);
        seeds |= row_any(p->seeds[y]);
    }
    return shadow && seeds;
}

/* The support of a layer from that above it. */
INLINE void write_support(struct pair *p, const struct stack *s, int grown, const uint8_t *above, uint8_t *below)
{
    for (size_t y = 0; y < s->h; y++) {
        row open = grown ? row_but(p->shadow[y], p->got[y]) : p->shadow[y], up = load_row(above + y * s->bytes, s->bytes);
        store_row(below + y * s->bytes, row_or(open, row_but(up, p->lower[y])), s->bytes);
    }
}

static void plan(struct pair *p, const struct stack *s, const uint8_t *part, uint8_t *support, uint16_t *rings)
{
    p->lower = p->planes[0];
    p->upper = p->planes[1];
    memset(support + (s->n - 1) * s->plane, 0, s->plane);
    for (size_t y = 0; y < s->h; y++) p->upper[y] = load_row(part + (s->n - 1) * s->plane + y * s->bytes, s->bytes);
    for (size_t i = s->n - 1; i-- > 0;) {
        uint16_t *plane = rings + i * s->w * s->h;
        memset(plane, 0, s->w * s->h * sizeof *plane);
        int grown = open_pair(p, s, part + i * s->plane) && s->reach > 0;
        if (grown) {
            find_near(p, s, p->shadow);
            for (size_t y = 0; y < s->h; y++) p->free[y] = row_and(p->near[y], p->shadow[y]);
            grow(p, plane, s->w, s->h);
        }
        write_support(p, s, grown, support + (i + 1) * s->plane, support + i * s->plane);
        swap_planes(p);
    }
}

kg_answer peer_plan(uint64_t w, uint64_t h, uint64_t n, uint32_t pitch, uint32_t overhang,
                    const uint8_t *part, uint64_t part_len,
                    uint8_t *support, uint64_t support_len,
                    uint16_t *rings, uint64_t rings_len)
{
    struct stack s;
    kg_answer refused = settle(&s, w, h, n, pitch, overhang);
    if (refused == 0) refused = refuse(&s, part, part_len, support_len, rings_len);
    if (refused != 0) return refused;
    plan(&scratch, &s, part, support, rings);
    return 0;
}

/* ---- Judging ---- */

static kg_answer overlap(const struct stack *s, const uint8_t *part, const uint8_t *support)
{
    for (size_t k = 0; k < s->n * s->plane; k++)
        if ((part[k] & support[k]) != 0) {
            size_t x = k % s->bytes * 8 + (size_t)__builtin_clz((unsigned)(part[k] & support[k]) << 24);
            return told(9, k / s->plane, k / s->bytes % s->h, x);
        }
    return 0;
}

/* The pixels of a row that have a ring. */
INLINE row ringed(const uint16_t *rings, size_t w)
{
    row got = {{0}};
    uint16_t all = 0;
#pragma GCC unroll 2
    for (size_t x = 0; x < w; x++) all |= rings[x];
    if (all != 0)
        for (size_t x = 0; x < w; x++)
            if (rings[x] != 0) got.v[x / 64] |= bit_of(x);
    return got;
}

/* Turns the upper plane into rows, and finds shadow, seeds and the pixels with a ring. Answers whether there is one. */
INLINE int open_judged(struct pair *p, const struct stack *s, const uint8_t *up, const uint16_t *rings)
{
    int some = 0;
    for (size_t y = 0; y < s->h; y++) {
        row upper = load_row(up + y * s->bytes, s->bytes);
        p->upper[y] = upper;
        p->shadow[y] = row_but(upper, p->lower[y]);
        p->seeds[y] = row_and(upper, p->lower[y]);
        p->got[y] = ringed(rings + y * s->w, s->w);
        some |= row_any(p->got[y]);
    }
    return some;
}

/* Finds the near pixels as far as rings need them. A ring beside the lower part is near where the bound is at least 2. */
INLINE void find_near_rings(struct pair *p, const struct stack *s)
{
    int far = s->bound < 2;
    for (size_t y = 0; y < s->h && !far; y++)
        far = row_any(p->got[y]) && row_any(row_but(p->got[y], around(p->lower, y, s->h)));
    if (far)
        find_near(p, s, p->got);
    else
        memcpy(p->near, p->got, s->h * sizeof *p->near);
}

/* Whether a neighbour has ring v - 1, and is a seed where that is 0. */
INLINE int leans(const struct pair *p, const struct stack *s, const uint16_t *rings, size_t y, size_t x, unsigned v)
{
    size_t top = y > 0 ? y - 1 : 0, bottom = y + 1 < s->h ? y + 1 : y, left = x > 0 ? x - 1 : 0, right = x + 1 < s->w ? x + 1 : x;
    for (size_t r = top; r <= bottom; r++)
        for (size_t c = left; c <= right; c++) {
            if (r == y && c == x) continue;
            if (v == 1 ? (p->seeds[r].v[c / 64] & bit_of(c)) != 0 && rings[r * s->w + c] == 0 : rings[r * s->w + c] == v - 1) return 1;
        }
    return 0;
}

/* The first bad ring of a pair. */
static kg_answer bad_ring(struct pair *p, const struct stack *s, const uint16_t *rings, size_t layer)
{
    find_near_rings(p, s);
    for (size_t y = 0; y < s->h; y++) {
        row left = p->got[y];
        for (size_t k = 0; k < WORDS; k++)
            while (left.v[k] != 0) {
                size_t x = (size_t)__builtin_clzll(left.v[k]);
                uint64_t bit = bit_of(x);
                left.v[k] &= ~bit;
                x += 64 * k;
                int good = (p->shadow[y].v[k] & bit) != 0 && s->reach > 0 && (p->near[y].v[k] & bit) != 0;
                if (!good || !leans(p, s, rings, y, x, rings[y * s->w + x])) return told(10, layer, y, x);
            }
    }
    return 0;
}

/* 11 for a pixel of the part, 19 for one of the support. */
static kg_answer told_unheld(const struct pair *p, size_t layer, size_t y, size_t x)
{
    return told((p->upper[y].v[x / 64] & bit_of(x)) != 0 ? 11 : 19, layer, y, x);
}

/* The first unheld pixel of a pair whose rings are good. */
INLINE kg_answer unheld(const struct pair *p, const struct stack *s, const uint8_t *below, const uint8_t *above, size_t layer)
{
    for (size_t y = 0; y < s->h; y++) {
        row need = row_or(p->upper[y], load_row(above + y * s->bytes, s->bytes));
        row held = row_or(row_or(p->lower[y], load_row(below + y * s->bytes, s->bytes)), p->got[y]), bad = row_but(need, held);
        for (size_t k = 0; row_any(bad); k++)
            if (bad.v[k] != 0) return told_unheld(p, layer, y, 64 * k + (size_t)__builtin_clzll(bad.v[k]));
    }
    return 0;
}

static kg_answer judge(struct pair *p, const struct stack *s, const uint8_t *part, const uint8_t *support, const uint16_t *rings)
{
    kg_answer found = overlap(s, part, support), bad;
    if (found != 0) return found;
    p->lower = p->planes[0];
    p->upper = p->planes[1];
    for (size_t y = 0; y < s->h; y++) p->lower[y] = load_row(part + y * s->bytes, s->bytes);
    for (size_t i = 0; i + 1 < s->n; i++) {
        const uint16_t *plane = rings + i * s->w * s->h;
        const uint8_t *below = support + i * s->plane;
        if (open_judged(p, s, part + (i + 1) * s->plane, plane) && (bad = bad_ring(p, s, plane, i + 1)) != 0) return bad;
        if (found == 0) found = unheld(p, s, below, below + s->plane, i + 1);
        swap_planes(p);
    }
    return found;
}

kg_answer peer_check(uint64_t w, uint64_t h, uint64_t n, uint32_t pitch, uint32_t overhang,
                     const uint8_t *part, uint64_t part_len,
                     const uint8_t *support, uint64_t support_len,
                     const uint16_t *rings, uint64_t rings_len)
{
    struct stack s;
    kg_answer refused = settle(&s, w, h, n, pitch, overhang);
    if (refused == 0) refused = refuse(&s, part, part_len, support_len, rings_len);
    if (refused == 0) refused = bad_padding(&s, support, 8);
    if (refused != 0) return refused;
    return judge(&scratch, &s, part, support, rings);
}
