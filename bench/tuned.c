/* Planning, judging, cleaning and posts in C that was tuned as far as that paid. What makes it faster than the peer, which only plans and judges:
 *
 * - Stacks are passed over by bytes in flat loops, which the compiler turns into vector code. A pair of layers with no shadow or no
 *   seed ends there.
 * - In a pair that has both a row is four words of 64 pixels, column 0 being the highest bit of the first word, and only rows that have
 *   shadow are worked on.
 * - Rings 1 to 3 are given by whole rows. Further ones by breadth-first search with a queue of words: pixels of a word that get the same
 *   ring together spread together.
 * - A pixel of ring k has a seed within k rows and k columns, so it is near while 2 k k is at most the bound. Beyond that near pixels
 *   are found row by row, by widening, for the rows that still have shadow pixels without a ring.
 * - The checker tests that every ring lies in the shadow and has one to lean on; small rings are then near for the same reason. Only
 *   where a test fails it looks for the first place, pixel by pixel.
 * - Cleaning plans first. A layer's support is closed by rows, two at a time as vectors, and only where it has pixels and is not that of
 *   the layer above; rows with nothing or with a full row nearby are passed over.
 * - Posts are made by rows that have pixels left. Those gone down grow as seeds do. What grows from a new post is found in windows of 64 columns,
 *   from its own row down, as nothing remains above it, and up again only where that adds something.
 */
#include "peers.h"

#include <string.h>

enum { MOST = 256, WORDS = 4, REACH = 32 };

/* Flat loops are unrolled, which the compiler does not do by itself, and what works on rows is inlined, so that rows stay in registers. */
#define INLINE static inline __attribute__((always_inline))

/* ---- Rows ---- */

typedef struct {
    uint64_t v[WORDS];
} row;

INLINE row row_or(row a, row b)
{
    for (int k = 0; k < WORDS; k++) a.v[k] |= b.v[k];
    return a;
}

INLINE row row_and(row a, row b)
{
    for (int k = 0; k < WORDS; k++) a.v[k] &= b.v[k];
    return a;
}

INLINE row row_but(row a, row b)
{
    for (int k = 0; k < WORDS; k++) a.v[k] &= ~b.v[k];
    return a;
}

INLINE int row_any(row a) { return (a.v[0] | a.v[1] | a.v[2] | a.v[3]) != 0; }

static row short_row(const uint8_t *s, size_t bytes)
{
    row r = {{0}};
    memcpy(&r, s, bytes);
    return r;
}

/* The bytes of a row as they are; bytes beyond the row are 0. */
INLINE row raw_row(const uint8_t *s, size_t bytes)
{
    row r;
    if (bytes != sizeof r) return short_row(s, bytes);
    for (int k = 0; k < WORDS; k++) memcpy(&r.v[k], s + 8 * k, 8);
    return r;
}

INLINE void put_row(uint8_t *s, row r, size_t bytes)
{
    if (bytes != sizeof r)
        memcpy(s, &r, bytes);
    else
        for (int k = 0; k < WORDS; k++) memcpy(s + 8 * k, &r.v[k], 8);
}

/* From bytes in order to words whose highest bit comes first, and back. */
INLINE row turned(row r)
{
    for (int k = 0; k < WORDS; k++) r.v[k] = __builtin_bswap64(r.v[k]);
    return r;
}

INLINE row row_at(const uint8_t *s, size_t bytes) { return turned(raw_row(s, bytes)); }

/* A plane of rows as words, four to a row. */
INLINE uint64_t *words(row *plane) { return (uint64_t *)plane; }

/* The row moved by 1 to 63 columns to both sides, joined with itself. */
INLINE row spread(row a, int by)
{
    row r;
    for (int k = 0; k < WORDS; k++) {
        uint64_t before = k > 0 ? a.v[k - 1] << (64 - by) : 0, after = k + 1 < WORDS ? a.v[k + 1] >> (64 - by) : 0;
        r.v[k] = a.v[k] | a.v[k] << by | a.v[k] >> by | before | after;
    }
    return r;
}

/* Every pixel of the row with `by` columns to both sides. After a step of k, gaps up to 2 k + 1 columns are closed. */
INLINE row widened(row a, int by)
{
    if (by == 0) return a;
    a = spread(a, 1);
    for (int done = 1, step; done < by; done += step) {
        step = done < by - done ? done : by - done;
        a = spread(a, step);
    }
    return a;
}

/* ---- Settings and refusals ---- */

struct stack {
    size_t w, h, n, bytes, plane; /* bytes of a row and of a plane */
    int reach, bound;             /* the disc's rows to each side, and its squared radius */
    int half[REACH + 1];          /* the disc runs half[d] columns to each side in a row d rows away */
    unsigned surely;              /* rings up to this one are near by themselves */
};

/* How far a disc runs to each side in a row d rows away. */
static void find_halves(int *half, int reach, int bound)
{
    for (int d = 0; d <= reach; d++)
        for (half[d] = 0; (half[d] + 1) * (half[d] + 1) + d * d <= bound;) half[d]++;
}

static kg_answer told(unsigned number, size_t layer, size_t y, size_t x)
{
    return number | (kg_answer)layer << 16 | (kg_answer)y << 32 | (kg_answer)x << 48;
}

/* The first row whose padding is set, with its number; or 0. All rows are joined first, which most stacks pass. */
static kg_answer bad_padding(const struct stack *s, const uint8_t *stack, unsigned number)
{
    unsigned pad = (unsigned)(s->bytes * 8 - s->w), mask = (1u << pad) - 1, found = 0;
    if (pad == 0) return 0;
    for (size_t k = 0; k < s->n * s->h; k++) found |= stack[k * s->bytes + s->bytes - 1];
    if ((found & mask) == 0) return 0;
    size_t k = 0;
    while ((stack[k * s->bytes + s->bytes - 1] & mask) == 0) k++;
    return told(number, k / s->h, k % s->h, 0);
}

static unsigned settle(struct stack *s, uint64_t w, uint64_t h, uint64_t n, uint32_t pitch, uint32_t overhang)
{
    if (w < 1 || w > MOST || h < 1 || h > MOST || n < 1 || n > 512) return 1;
    if (pitch < 10 || pitch > 1000 || overhang > 10000) return 2;
    if (overhang / pitch > REACH) return 3;
    *s = (struct stack){.w = w, .h = h, .n = n, .bytes = (w + 7) / 8, .plane = h * ((w + 7) / 8), .reach = (int)(overhang / pitch),
                        .bound = (int)(overhang * overhang / (pitch * pitch))};
    find_halves(s->half, s->reach, s->bound);
    while (2 * (s->surely + 1) * (s->surely + 1) <= (unsigned)s->bound) s->surely++;
    return 0;
}

static unsigned lengths(const struct stack *s, uint64_t part, uint64_t support, uint64_t rings)
{
    if (part != s->n * s->plane) return 4;
    if (support != s->n * s->plane) return 5;
    return rings != (s->n - 1) * s->w * s->h ? 6 : 0;
}

/* ---- Rings of eight pixels ---- */

/* For each byte the rings of its pixels where the filled ones have ring 1 and the others none. */
static uint16_t ones[256][8];

static void make_ones(void)
{
    for (unsigned byte = 0; byte < 256; byte++)
        for (unsigned x = 0; x < 8; x++) ones[byte][x] = (uint16_t)(byte >> (7 - x) & 1);
}

/* ---- A pair of layers with shadow and seeds ---- */

/* Of a plane of rows, row y is entry y + 1; the entries before and after the image are empty. */
struct pair {
    const struct stack *s;
    const uint8_t *low, *up;
    uint16_t rows[MOST]; /* the rows that have shadow */
    size_t count;
    row shadow[MOST + 2];        /* its other rows are empty */
    row seeds[MOST + 2];         /* right in the rows that have shadow and in those beside them */
    row lower[MOST + 2 * REACH]; /* the lower part, row y being entry y + REACH, once something was measured */
    int measured;
};

static void find_shadow(struct pair *p)
{
    size_t bytes = p->s->bytes;
    p->count = 0;
    for (size_t y = 0; y < p->s->h; y++) {
        row shadow = row_but(raw_row(p->up + y * bytes, bytes), raw_row(p->low + y * bytes, bytes));
        if (!row_any(shadow)) continue;
        p->shadow[y + 1] = turned(shadow);
        p->rows[p->count++] = (uint16_t)y;
    }
}

/* y is the first row that was not looked at yet. */
static void find_seeds(struct pair *p)
{
    size_t bytes = p->s->bytes, h = p->s->h, y = 0;
    for (size_t k = 0; k < p->count; k++) {
        if (y + 1 < p->rows[k]) y = p->rows[k] - 1u;
        for (; y < h && y <= p->rows[k] + 1u; y++)
            p->seeds[y + 1] = turned(row_and(raw_row(p->up + y * bytes, bytes), raw_row(p->low + y * bytes, bytes)));
    }
    p->seeds[h + 1] = (row){{0}};
}

static void open_pair(struct pair *p, const struct stack *s, const uint8_t *low, const uint8_t *up)
{
    p->s = s;
    p->low = low;
    p->up = up;
    p->measured = 0;
    find_shadow(p);
    find_seeds(p);
}

/* Empties the rows of a plane that have shadow. */
static void empty_rows(const struct pair *p, row *plane)
{
    for (size_t k = 0; k < p->count; k++) plane[p->rows[k] + 1] = (row){{0}};
}

/* The pixels beside those of a plane, in row y. */
INLINE row beside(const row *plane, size_t y)
{
    return spread(row_or(row_or(plane[y], plane[y + 1]), plane[y + 2]), 1);
}

static void turn_lower(struct pair *p)
{
    const struct stack *s = p->s;
    for (size_t y = 0; y < s->h; y++) p->lower[y + REACH] = row_at(p->low + y * s->bytes, s->bytes);
    memset(p->lower + s->h + REACH, 0, REACH * sizeof(row));
    p->measured = 1;
}

/* The near pixels of row y: what is further away by rows is joined later and so widened less. */
static row near_row(struct pair *p, size_t y)
{
    const row *at = p->lower + y + REACH;
    row a;
    if (!p->measured) turn_lower(p);
    a = *at;
    for (int d = 1; d <= p->s->reach; d++) {
        a = widened(a, p->s->half[d - 1] - p->s->half[d]);
        a = row_or(a, row_or(at[-d], at[d]));
    }
    return widened(a, p->s->half[p->s->reach]);
}

/* ---- Rings of a pair ---- */

/* The pixels of one word that got a ring together. */
struct front {
    uint64_t bits;
    uint16_t at, ring; /* the place of the word in a plane of rows; the ring */
    uint32_t last;     /* the last pixel of the word in the ring plane */
};

struct growth {
    struct pair pair; /* its shadow becomes what has no ring yet */
    uint16_t *rings;
    row got[MOST + 2], second[MOST + 2], third[MOST + 2]; /* the pixels with a ring; those of ring 2; those of ring 3 */
    struct front queue[MOST * MOST];
};

/* Takes the far pixels from what has no ring yet. */
static void drop_far(struct growth *g)
{
    row *left = g->pair.shadow;
    for (size_t k = 0; k < g->pair.count; k++) {
        size_t e = g->pair.rows[k] + 1u;
        if (row_any(left[e])) left[e] = row_and(left[e], near_row(&g->pair, e - 1));
    }
}

/* Writes ring v at the pixels of a word that ends at pixel `last`. */
INLINE void write_ring(uint16_t *rings, size_t last, uint64_t bits, unsigned v)
{
    for (; bits != 0; bits &= bits - 1) rings[last - (size_t)__builtin_ctzll(bits)] = (uint16_t)v;
}

/* Writes ring 1 at the pixels of a whole word, by eights where they are all over it. */
INLINE void write_ones(uint16_t *rings, size_t last, uint64_t bits)
{
    if ((bits & 0xffff) == 0 || (bits >> 16 & 0xffff) == 0 || (bits >> 32 & 0xffff) == 0 || bits >> 48 == 0)
        write_ring(rings, last, bits, 1);
    else
        for (int b = 0; b < 8; b++) memcpy(rings + last - 63 + 8 * b, ones[bits >> (56 - 8 * b) & 255], sizeof *ones);
}

INLINE void write_row(struct growth *g, size_t y, row now, unsigned v)
{
    size_t w = g->pair.s->w;
    for (size_t k = 0; k < WORDS; k++)
        if (v == 1 && 64 * k + 64 <= w)
            write_ones(g->rings, y * w + 64 * k + 63, now.v[k]);
        else
            write_ring(g->rings, y * w + 64 * k + 63, now.v[k], v);
}

/* Gives ring v to what is left beside the pixels of `from`, by rows. Answers whether anything is left. */
INLINE int ring_by_rows(struct growth *g, const row *from, row *to, unsigned v)
{
    row *left = g->pair.shadow;
    int more = 0;
    if (v == g->pair.s->surely + 1) drop_far(g);
    for (size_t k = 0; k < g->pair.count; k++) {
        size_t y = g->pair.rows[k];
        if (v > 1 && !row_any(left[y + 1])) continue;
        row now = row_and(beside(from, y), left[y + 1]);
        left[y + 1] = row_but(left[y + 1], now);
        more |= row_any(left[y + 1]);
        write_row(g, y, now, v);
        to[y + 1] = now;
    }
    return more;
}

/* What the search works on: planes as words. */
struct reached {
    uint64_t *left, *got;
    uint16_t *rings;
    struct front *tail; /* the end of the queue */
    size_t w;
};

/* Gives ring v to what is left among `bits` of a word. */
INLINE void take(struct reached *t, uint64_t bits, size_t at, size_t last, unsigned v)
{
    uint64_t now = t->left[at] & bits;
    if (now == 0) return;
    t->left[at] ^= now;
    t->got[at] |= now;
    *t->tail++ = (struct front){now, (uint16_t)at, (uint16_t)v, (uint32_t)last};
    write_ring(t->rings, last, now, v);
}

/* The same of a word and those above and below it. */
INLINE void take_rows(struct reached *t, uint64_t bits, size_t at, size_t last, unsigned v)
{
    take(t, bits, at - WORDS, last - t->w, v);
    take(t, bits, at, last, v);
    take(t, bits, at + WORDS, last + t->w, v);
}

/* Gives ring v to what is left beside the pixels of f. */
INLINE void take_beside(struct reached *t, struct front f, unsigned v)
{
    const uint64_t leftmost = 1ull << 63, rightmost = 1;
    take_rows(t, f.bits | f.bits << 1 | f.bits >> 1, f.at, f.last, v);
    if ((f.bits & (leftmost | rightmost)) == 0) return;
    if ((f.bits & leftmost) != 0 && f.at % WORDS != 0) take_rows(t, rightmost, f.at - 1u, f.last - 64u, v);
    if ((f.bits & rightmost) != 0 && f.at % WORDS != WORDS - 1) take_rows(t, leftmost, f.at + 1u, f.last + 64u, v);
}

/* All rings after those of `from`, which have ring v. */
static void search(struct growth *g, row *from, unsigned v)
{
    const struct stack *s = g->pair.s;
    struct reached t = {words(g->pair.shadow), words(g->got), g->rings, g->queue, s->w};
    for (size_t at = WORDS; at < (s->h + 1) * WORDS; at++)
        if (words(from)[at] != 0)
            *t.tail++ = (struct front){words(from)[at], (uint16_t)at, (uint16_t)v, (uint32_t)((at / WORDS - 1) * s->w + at % WORDS * 64 + 63)};
    int far = v <= s->surely; /* whether what is left may be far */
    for (struct front *f = g->queue; f < t.tail; f++) {
        if (far && f->ring == s->surely) {
            drop_far(g);
            far = 0;
        }
        take_beside(&t, *f, f->ring + 1u);
    }
}

/* Joins pixels that got a ring with those that had one. */
static void join(struct growth *g, const row *fresh)
{
    for (size_t k = 0; k < g->pair.count; k++) {
        size_t e = g->pair.rows[k] + 1u;
        g->got[e] = row_or(g->got[e], fresh[e]);
    }
}

/* The rings after ring 1. */
static void grow_further(struct growth *g)
{
    int more = ring_by_rows(g, g->got, g->second, 2);
    join(g, g->second);
    if (more) {
        more = ring_by_rows(g, g->second, g->third, 3);
        join(g, g->third);
        if (more) search(g, g->third, 3);
        empty_rows(&g->pair, g->third);
    }
    empty_rows(&g->pair, g->second);
}

/* All rings of an opened pair. Leaves the pixels that have one in got. */
static void grow(struct growth *g)
{
    if (ring_by_rows(g, g->pair.seeds, g->got, 1)) grow_further(g);
}

/* ---- Planning ---- */

/* The support of a layer where no pixel is excused. Answers whether the pair has a shadow. */
static int carry(const uint8_t *restrict low, const uint8_t *restrict up, const uint8_t *restrict above, uint8_t *restrict support,
                 size_t n)
{
    uint8_t shadow = 0;
#pragma GCC unroll 8
    for (size_t k = 0; k < n; k++) {
        shadow |= (uint8_t)(up[k] & ~low[k]);
        support[k] = (uint8_t)((up[k] | above[k]) & ~low[k]);
    }
    return shadow != 0;
}

/* Whether a pixel is in both planes. */
static int meet(const uint8_t *a, const uint8_t *b, size_t n)
{
    size_t k = 0;
    for (; k + 8 <= n; k += 8) {
        uint64_t x, y;
        memcpy(&x, a + k, 8);
        memcpy(&y, b + k, 8);
        if ((x & y) != 0) return 1;
    }
    for (; k < n; k++)
        if ((a[k] & b[k]) != 0) return 1;
    return 0;
}

/* Takes the excused pixels from the support. */
static void excuse(struct growth *g, uint8_t *support)
{
    size_t bytes = g->pair.s->bytes;
    for (size_t k = 0; k < g->pair.count; k++) {
        size_t y = g->pair.rows[k];
        uint8_t *at = support + y * bytes;
        put_row(at, row_but(raw_row(at, bytes), turned(g->got[y + 1])), bytes);
    }
}

static void plan(const struct stack *s, const uint8_t *part, uint8_t *support, uint16_t *rings)
{
    static struct growth g;
    make_ones();
    memset(support + (s->n - 1) * s->plane, 0, s->plane);
    for (size_t i = s->n - 1; i-- > 0;) {
        const uint8_t *low = part + i * s->plane, *up = low + s->plane;
        uint8_t *below = support + i * s->plane;
        g.rings = rings + i * s->w * s->h;
        memset(g.rings, 0, s->w * s->h * sizeof *g.rings);
        if (!carry(low, up, below + s->plane, below, s->plane) || s->reach == 0 || !meet(low, up, s->plane)) continue;
        open_pair(&g.pair, s, low, up);
        grow(&g);
        excuse(&g, below);
        empty_rows(&g.pair, g.got);
        empty_rows(&g.pair, g.pair.shadow);
    }
}

kg_answer tuned_plan(uint64_t w, uint64_t h, uint64_t n, uint32_t pitch, uint32_t overhang,
                     const uint8_t *part, uint64_t part_len,
                     uint8_t *support, uint64_t support_len,
                     uint16_t *rings, uint64_t rings_len)
{
    struct stack s;
    unsigned number = settle(&s, w, h, n, pitch, overhang);
    if (number == 0) number = lengths(&s, part_len, support_len, rings_len);
    if (number != 0) return number;
    kg_answer padding = bad_padding(&s, part, 7);
    if (padding == 0) plan(&s, part, support, rings);
    return padding;
}

/* ---- Closing ---- */

/* A row as two vectors, of words 0 and 1 and of words 2 and 3: left to itself the compiler mixes vectors and words. */
typedef uint64_t lanes __attribute__((vector_size(16)));

typedef struct {
    lanes a, b;
} twins;

INLINE twins twins_or(twins s, twins t) { return (twins){s.a | t.a, s.b | t.b}; }

INLINE twins twins_but(twins s, twins t) { return (twins){s.a & ~t.a, s.b & ~t.b}; }

INLINE int twins_any(twins t)
{
    lanes all = t.a | t.b;
    return (all[0] | all[1]) != 0;
}

INLINE twins twins_of(row r)
{
    twins t;
    memcpy(&t, &r, sizeof t);
    return t;
}

INLINE row row_of(twins t)
{
    row r;
    memcpy(&r, &t, sizeof r);
    return r;
}

/* As spread. */
INLINE twins spread_twins(twins t, int by)
{
    int rest = 64 - by;
    lanes before = {0, t.a[0]}, middle = {t.a[1], t.b[0]}, after = {t.b[1], 0};
    t.a |= t.a << by | t.a >> by | before << rest | middle >> rest;
    t.b |= t.b << by | t.b >> by | middle << rest | after >> rest;
    return t;
}

/* As widened, by 1 or more. After k columns a pixel at the image's edge is k + 1 columns wide, so a step of that many leaves no gap. */
INLINE twins widened_twins(twins t, int by)
{
    t = spread_twins(t, 1);
    if (by == 1) return t;
    if (by == 2) return spread_twins(t, 1);
    for (int done = 1, step; done < by; done += step) {
        step = done + 1 < by - done ? done + 1 : by - done;
        t = spread_twins(t, step);
    }
    return t;
}

/* Of a plane of rows, row y is entry y + REACH; the entries before and after the image are empty. */
struct closing {
    const struct stack *s;
    int reach, half[REACH + 1]; /* of the gap's disc, as in a stack */
    twins wide;                 /* the columns of the image */
    twins support[MOST + 2 * REACH], far[MOST + 2 * REACH];
    uint8_t closed[MOST * sizeof(row)]; /* the closing of the last layer that has one, as bytes */
};

static void open_closing(struct closing *c, const struct stack *s, int gap)
{
    row wide = {{0}};
    for (size_t x = 0; x < s->w; x++) wide.v[x / 64] |= 1ull << (63 - x % 64);
    c->s = s;
    c->reach = gap;
    find_halves(c->half, gap, gap * gap);
    c->wide = twins_of(wide);
    memset(c->support + s->h + REACH, 0, REACH * sizeof(twins));
    memset(c->far + s->h + REACH, 0, REACH * sizeof(twins));
}

/* What is far from a plane in two rows, as near_row finds what is near: what is no shifting or joining is done once for both. */
INLINE void measure_two(const struct closing *c, const twins *at, twins *far)
{
    const twins *up = at, *down = at;
    twins first = at[0], second = at[1];
    for (int d = 1; d <= c->reach; d++) {
        int by = c->half[d - 1] - c->half[d];
        if (by != 0) {
            first = widened_twins(first, by);
            second = widened_twins(second, by);
        }
        up--;
        down++;
        first = twins_or(twins_or(first, up[0]), down[0]);
        second = twins_or(twins_or(second, up[1]), down[1]);
    }
    far[0] = twins_but(c->wide, first);
    far[1] = twins_but(c->wide, second);
}

/* Of the rows that were looked at: the last that has a pixel, the last full one and the full one before that. */
struct seen {
    int any, full, before, next;
};

static const struct seen nothing_seen = {-MOST, -MOST, -MOST, 0};

/* Few rows have a full first word, so the others are asked only then. */
INLINE void look_at(struct seen *t, twins r, twins wide)
{
    if (twins_any(r)) t->any = t->next;
    if (r.a[0] == wide.a[0] && !twins_any(twins_but(wide, r))) {
        t->before = t->full;
        t->full = t->next;
    }
    t->next++;
}

/* Whether a full row is within the disc of both row y and row y + 1. The last row that was looked at is within that of y + 1 only. */
INLINE int full_nearby(const struct seen *t, int y, int reach)
{
    return (t->full <= y + reach ? t->full : t->before) > y - reach;
}

/* What is far from a plane in the rows y and y + 1, where all rows within the disc were looked at: all where these are empty, nothing where
 * a row within the disc of both is full. */
static void far_two(const struct closing *c, const struct seen *t, const twins *plane, int y, twins *far)
{
    int reach = c->reach;
    if (t->any < y - reach)
        far[0] = far[1] = c->wide;
    else if (full_nearby(t, y, reach))
        far[0] = far[1] = (twins){{0}, {0}};
    else
        measure_two(c, plane + y + REACH, far);
}

/* The rows to look at before those from y on. */
INLINE int rows_ahead(const struct closing *c, int y)
{
    int h = (int)c->s->h, end = y + 2 + c->reach;
    return end < h ? end : h;
}

/* Turns a support into rows and finds what is far from it. */
static void find_far(struct closing *c, const uint8_t *support)
{
    struct seen t = nothing_seen;
    size_t bytes = c->s->bytes;
    for (int y = 0; y < (int)c->s->h; y += 2) {
        for (int end = rows_ahead(c, y); t.next < end;) {
            twins r = twins_of(row_at(support + (size_t)t.next * bytes, bytes));
            c->support[t.next + REACH] = r;
            look_at(&t, r, c->wide);
        }
        far_two(c, &t, c->support, y, c->far + y + REACH);
    }
    c->far[c->s->h + REACH] = (twins){{0}, {0}};
}

/* What is far from that, the closing, as bytes. */
static void find_closed(struct closing *c)
{
    struct seen t = nothing_seen;
    size_t bytes = c->s->bytes;
    for (int y = 0; y < (int)c->s->h; y += 2) {
        twins r[2];
        uint8_t *at = c->closed + (size_t)y * bytes;
        for (int end = rows_ahead(c, y); t.next < end;) look_at(&t, c->far[t.next + REACH], c->wide);
        far_two(c, &t, c->far, y, r);
        put_row(at, turned(row_of(r[0])), bytes);
        put_row(at + bytes, turned(row_of(r[1])), bytes);
    }
}

/* ---- Cleaning ---- */

static int any_pixel(const uint8_t *plane, size_t n)
{
    uint8_t all = 0;
#pragma GCC unroll 8
    for (size_t k = 0; k < n; k++) all |= plane[k];
    return all != 0;
}

/* The cleaned support of a layer without support, where all of the shadow is excused. */
static void carry_down(const uint8_t *restrict low, const uint8_t *restrict up, const uint8_t *restrict above, uint8_t *restrict cleaned,
                       size_t n)
{
#pragma GCC unroll 8
    for (size_t k = 0; k < n; k++) cleaned[k] = (uint8_t)(above[k] & ~(low[k] | up[k]));
}

/* The cleaned support of a layer: what of the shadow is not support is excused. */
static void join_down(const uint8_t *restrict low, const uint8_t *restrict up, const uint8_t *restrict above, const uint8_t *restrict support,
                      const uint8_t *restrict closed, uint8_t *restrict cleaned, size_t n)
{
#pragma GCC unroll 8
    for (size_t k = 0; k < n; k++) cleaned[k] = (uint8_t)((above[k] | closed[k]) & ~low[k] & (~up[k] | support[k]));
}

/* The closing of a layer's support, which is kept for the layers below that have the same. */
static const uint8_t *closing_of(struct closing *c, const uint8_t *support)
{
    if (c->reach == 0) return support;
    if (memcmp(support, support + c->s->plane, c->s->plane) != 0) {
        find_far(c, support);
        find_closed(c);
    }
    return c->closed;
}

static void clean(const struct stack *s, int gap, const uint8_t *part, const uint8_t *support, uint8_t *cleaned)
{
    static struct closing c;
    open_closing(&c, s, gap);
    memset(cleaned + (s->n - 1) * s->plane, 0, s->plane);
    for (size_t i = s->n - 1; i-- > 0;) {
        const uint8_t *low = part + i * s->plane, *up = low + s->plane, *here = support + i * s->plane;
        uint8_t *below = cleaned + i * s->plane, *above = below + s->plane;
        if (any_pixel(here, s->plane))
            join_down(low, up, above, here, closing_of(&c, here), below, s->plane);
        else
            carry_down(low, up, above, below, s->plane);
    }
}

kg_answer tuned_clean(uint64_t w, uint64_t h, uint64_t n, uint32_t pitch, uint32_t overhang, uint64_t gap,
                      const uint8_t *part, uint64_t part_len,
                      uint8_t *support, uint64_t support_len,
                      uint16_t *rings, uint64_t rings_len,
                      uint8_t *cleaned, uint64_t cleaned_len)
{
    struct stack s;
    kg_answer answer = settle(&s, w, h, n, pitch, overhang);
    if (answer == 0 && gap > REACH) answer = 18;
    if (answer == 0 && part_len == s.n * s.plane && cleaned_len != part_len) answer = 5;
    if (answer == 0) answer = tuned_plan(w, h, n, pitch, overhang, part, part_len, support, support_len, rings, rings_len);
    if (answer == 0) clean(&s, (int)gap, part, support, cleaned);
    return answer;
}

/* ---- What grows from a new post ---- */

/* A row of what remains: an empty word, its four, an empty word. So a window of 64 columns may lie across either end. */
typedef uint64_t padded[WORDS + 2];

/* Windows have the post's column `before` columns from their first. A disc of 65 columns has its last one by itself. */
struct taking {
    int reach, before;
    uint64_t disc[REACH + 1];     /* its columns in each row from the post's on */
    uint8_t last_disc[REACH + 1]; /* and whether it has the one after the window */
    uint64_t free[REACH + 1], got[REACH + 1];
    uint8_t last_free[REACH + 1], last_got[REACH + 1];
    padded rest[MOST + REACH + 1]; /* what remains; rows past the image are empty */
};

static void open_taking(struct taking *t, const struct stack *radius)
{
    t->reach = radius->reach;
    t->before = radius->half[1] < REACH ? REACH - 1 : REACH; /* to its left the post's own row has nothing */
    for (int d = 0; d <= t->reach; d++) {
        int first = radius->half[d] < t->before ? t->before - radius->half[d] : 0, end = t->before + radius->half[d] + 1;
        t->disc[d] = ~0ull >> first & ~(end < 64 ? ~0ull >> end : 0);
        t->last_disc[d] = end > 64;
    }
}

/* Columns are counted from the empty word on. */
INLINE uint64_t window(const uint64_t *r, size_t from)
{
    size_t k = from / 64, o = from % 64;
    return r[k] << o | r[k + 1] >> 1 >> (63 - o);
}

INLINE void leave_window(uint64_t *r, size_t from, uint64_t bits)
{
    size_t k = from / 64, o = from % 64;
    r[k] &= ~(bits >> o);
    r[k + 1] &= ~(bits << 1 << (63 - o));
}

/* The runs of `free` in which pixels of `from` are: to higher bits by carries, to lower ones by doubled steps. */
INLINE uint64_t along(uint64_t free, uint64_t from)
{
    uint64_t got = (((free + from) ^ free) & free) | from;
    for (int by = 1; by < 64 && free != 0; by *= 2) {
        got |= free & got >> by;
        free &= free >> by;
    }
    return got;
}

/* Adds to row d what is beside the pixels of another row, and what that leads to along the row. Answers whether anything was added. */
INLINE int take_in_row(struct taking *t, int d, int other, int two)
{
    uint64_t a = t->got[other], from = (a | a << 1 | a >> 1) & t->free[d] & ~t->got[d];
    int last = 0;
    if (two) {
        if (t->last_got[other]) from |= t->free[d] & ~t->got[d] & 1;
        last = t->last_free[d] && !t->last_got[d] && (t->last_got[other] || (a & 1) != 0);
        t->last_got[d] |= (uint8_t)last;
        if (last) from |= t->free[d] & ~t->got[d] & 1;
    }
    if (from == 0) return last;
    t->got[d] |= along(t->free[d], from);
    if (two && t->last_free[d] && (t->got[d] & 1) != 0) t->last_got[d] = 1;
    return 1;
}

INLINE void look_at_row(struct taking *t, const uint64_t *r, int d, size_t from, int two)
{
    t->free[d] = window(r, from) & t->disc[d];
    t->got[d] = 0;
    if (!two) return;
    t->last_free[d] = t->last_disc[d] && (r[(from + 64) / 64] >> (63 - from % 64) & 1) != 0;
    t->last_got[d] = 0;
}

/* Takes away the first remaining pixel, at row y and column x, and what grows from it. */
INLINE void take_from(struct taking *t, size_t y, size_t x, int two)
{
    size_t from = 64 + x - (size_t)(two ? REACH : REACH - 1);
    int seen = 0, deep = 0, again;
    look_at_row(t, t->rest[y], 0, from, two);
    uint64_t post = 1ull << (63 - t->before), right = t->free[0] << t->before;
    t->got[0] = ~right == 0 ? t->free[0] : (post << 1) - (post >> (__builtin_clzll(~right) - 1));
    if (two && t->last_free[0] && (t->got[0] & 1) != 0) t->last_got[0] = 1;
    do {
        for (int d = 1; d <= t->reach && d <= deep + 1; d++) {
            if (d > seen) look_at_row(t, t->rest[y + (size_t)d], seen = d, from, two);
            if (take_in_row(t, d, d - 1, two) && d > deep) deep = d;
        }
        again = 0;
        for (int d = deep; d-- > 0;) again |= take_in_row(t, d, d + 1, two);
    } while (again);
    for (int d = 0; d <= deep; d++) {
        leave_window(t->rest[y + (size_t)d], from, t->got[d]);
        if (two && t->last_got[d]) t->rest[y + (size_t)d][(from + 64) / 64] &= ~(1ull << (63 - from % 64));
    }
}

/* ---- Posts ---- */

/* The new posts of a row, whose pixels are all taken away. */
static row new_posts(struct taking *t, size_t y)
{
    row found = {{0}};
    for (size_t k = 0; k < WORDS; k++)
        while (t->rest[y][k + 1] != 0) {
            size_t column = (size_t)__builtin_clzll(t->rest[y][k + 1]);
            found.v[k] |= 1ull << (63 - column);
            if (t->before == REACH) take_from(t, y, 64 * k + column, 1);
            else take_from(t, y, 64 * k + column, 0);
        }
    return found;
}

/* The posts that go down. Answers whether there are any. */
static int go_down(const uint8_t *restrict low, const uint8_t *restrict above, uint8_t *restrict down, size_t n)
{
    uint8_t any = 0;
#pragma GCC unroll 8
    for (size_t k = 0; k < n; k++) any |= down[k] = (uint8_t)(above[k] & ~low[k]);
    return any != 0;
}

/* Takes the excused pixels from the shadow and keeps the rows where some are left; in the others posts only go down. */
static void keep_left(struct growth *g, const uint8_t *above, uint8_t *below)
{
    struct pair *p = &g->pair;
    size_t bytes = p->s->bytes, count = 0;
    for (size_t k = 0; k < p->count; k++) {
        size_t y = p->rows[k];
        row low = raw_row(p->low + y * bytes, bytes), left = row_but(turned(row_but(raw_row(p->up + y * bytes, bytes), low)), g->got[y + 1]);
        g->got[y + 1] = (row){{0}};
        p->shadow[y + 1] = left;
        if (row_any(left)) p->rows[count++] = (uint16_t)y;
        else put_row(below + y * bytes, row_but(raw_row(above + y * bytes, bytes), low), bytes);
    }
    p->count = count;
}

/* What remains of the rows with pixels left. */
static void keep_rest(struct growth *g, struct taking *t)
{
    for (size_t k = 0; k < g->pair.count; k++) {
        size_t y = g->pair.rows[k];
        memcpy(t->rest[y] + 1, &g->pair.shadow[y + 1], sizeof(row));
    }
}

/* Takes away what grows from the posts gone down, which are the lower part of a pair under what is left. */
static void take_together(struct growth *g, const struct stack *radius, struct taking *t, const uint8_t *down, const uint8_t *below)
{
    struct pair *p = &g->pair;
    p->s = radius;
    p->low = down;
    p->up = below;
    p->measured = 0;
    find_seeds(p);
    grow(g);
    for (size_t k = 0; k < p->count; k++) {
        size_t y = p->rows[k];
        for (int j = 0; j < WORDS; j++) t->rest[y][j + 1] &= ~g->got[y + 1].v[j];
    }
    empty_rows(p, g->got);
}

/* The posts of a layer that has shadow above it: those gone down, and new ones in the rows where pixels are left. */
static void hold(struct growth *g, const struct stack *radius, struct taking *t, const uint8_t *above, uint8_t *below)
{
    static uint8_t down[MOST * sizeof(row)];
    struct pair *p = &g->pair;
    size_t bytes = radius->bytes;
    keep_left(g, above, below);
    if (p->count == 0) return;
    keep_rest(g, t);
    if (go_down(p->low, above, down, radius->plane)) take_together(g, radius, t, down, below);
    for (size_t k = 0; k < p->count; k++) {
        size_t y = p->rows[k];
        put_row(below + y * bytes, row_or(raw_row(down + y * bytes, bytes), turned(new_posts(t, y))), bytes);
    }
}

/* Rings are written over each other: only what has one is asked. */
static void post(const struct stack *s, const struct stack *radius, const uint8_t *part, uint8_t *posts)
{
    static struct growth g;
    static struct taking t;
    static uint16_t rings[MOST * MOST];
    make_ones();
    open_taking(&t, radius);
    g.rings = rings;
    memset(posts + (s->n - 1) * s->plane, 0, s->plane);
    for (size_t i = s->n - 1; i-- > 0;) {
        const uint8_t *low = part + i * s->plane, *up = low + s->plane;
        uint8_t *below = posts + i * s->plane;
        if (!carry(low, up, below + s->plane, below, s->plane)) continue;
        if (radius->reach == 0 && (s->reach == 0 || !meet(low, up, s->plane))) continue;
        open_pair(&g.pair, s, low, up);
        if (s->reach != 0) grow(&g);
        if (radius->reach == 0) excuse(&g, below);
        else hold(&g, radius, &t, below + s->plane, below);
        empty_rows(&g.pair, g.got);
        empty_rows(&g.pair, g.pair.shadow);
    }
}

kg_answer tuned_posts(uint64_t w, uint64_t h, uint64_t n, uint32_t pitch, uint32_t overhang, uint32_t radius,
                      const uint8_t *part, uint64_t part_len,
                      uint8_t *posts, uint64_t posts_len)
{
    struct stack s, of_radius;
    unsigned number = settle(&s, w, h, n, pitch, overhang);
    if (number == 0 && settle(&of_radius, w, h, n, pitch, radius) != 0) number = 20;
    if (number == 0) number = lengths(&s, part_len, posts_len, (n - 1) * w * h);
    if (number != 0) return number;
    kg_answer padding = bad_padding(&s, part, 7);
    if (padding == 0) post(&s, &of_radius, part, posts);
    return padding;
}

/* ---- Judging ---- */

static kg_answer overlap(const struct stack *s, const uint8_t *part, const uint8_t *support)
{
    uint8_t found = 0;
#pragma GCC unroll 8
    for (size_t k = 0; k < s->n * s->plane; k++) found |= (uint8_t)(part[k] & support[k]);
    if (found == 0) return 0;
    size_t k = 0;
    while ((part[k] & support[k]) == 0) k++;
    size_t x = k % s->bytes * 8 + (size_t)__builtin_clz((unsigned)(part[k] & support[k]) << 24);
    return told(9, k / s->plane, k / s->bytes % s->h, x);
}

/* Whether the pair has a shadow; and whether a support pixel is unheld. */
static int look(const uint8_t *low, const uint8_t *up, const uint8_t *below, const uint8_t *above, size_t n, int *hangs)
{
    uint8_t shadow = 0, hanging = 0;
#pragma GCC unroll 8
    for (size_t k = 0; k < n; k++) {
        shadow |= (uint8_t)(up[k] & ~low[k]);
        hanging |= (uint8_t)(above[k] & ~(low[k] | below[k]));
    }
    *hangs = hanging != 0;
    return shadow != 0;
}

/* Whether none of n pixels has a ring. */
INLINE int no_ring(const uint16_t *rings, size_t n)
{
    uint16_t all = 0;
#pragma GCC unroll 8
    for (size_t k = 0; k < n; k++) all |= rings[k];
    return all == 0;
}

struct judged {
    struct pair pair;
    const uint8_t *below, *above;
    const uint16_t *rings;
    int hangs; /* whether a pixel is unheld */
    row near[MOST];
    uint8_t known[MOST]; /* the rows of near that were measured */
};

/* The near pixels of row y, found once. */
static const row *near_once(struct judged *j, size_t y)
{
    if (!j->known[y]) {
        j->known[y] = 1;
        j->near[y] = near_row(&j->pair, y);
    }
    return &j->near[y];
}

static int at_edge(const struct judged *j, size_t y, size_t x)
{
    return y == 0 || x == 0 || y + 1 == j->pair.s->h || x + 1 == j->pair.s->w;
}

/* Whether a neighbour has ring v; the pixel itself has another. */
static int leans(const struct judged *j, size_t y, size_t x, unsigned v)
{
    size_t w = j->pair.s->w, h = j->pair.s->h;
    const uint16_t *p = j->rings + y * w + x, *up = p - w, *down = p + w;
    if (!at_edge(j, y, x))
        return p[-1] == v || p[1] == v || up[0] == v || down[0] == v || up[-1] == v || up[1] == v || down[-1] == v || down[1] == v;
    for (size_t r = y > 0 ? y - 1 : y; r < h && r <= y + 1; r++)
        for (size_t c = x > 0 ? x - 1 : x; c < w && c <= x + 1; c++)
            if (j->rings[r * w + c] == v) return 1;
    return 0;
}

/* ---- Rings that are good ---- */

/* A word of a row with shadow: its rings, its pixels in the shadow and those of them beside seeds; and its pixels that have a ring. */
struct word {
    size_t y, x;
    const uint16_t *rings;
    uint64_t shadow, first, got;
};

/* Whether n pixels from the word's column c on have good rings: each in the shadow, with one to lean on, and near where that does not
 * follow. */
static int good_pixels(struct judged *j, struct word *t, size_t c, size_t n)
{
    for (size_t end = c + n; c < end; c++) {
        unsigned v = t->rings[c];
        uint64_t bit = 1ull << (63 - c);
        if (v == 0) continue;
        if ((t->shadow & bit) == 0 || (v == 1 ? (t->first & bit) == 0 : !leans(j, t->y, t->x + c, v - 1))) return 0;
        if (v > j->pair.s->surely && (near_once(j, t->y)->v[t->x / 64] & bit) == 0) return 0;
        t->got |= bit;
    }
    return 1;
}

/* The same of 64 pixels. Eight of them at a time are passed over whose rings are 1 beside seeds and else 0. */
INLINE int good_word(struct judged *j, struct word *t)
{
    t->got = t->first;
    for (size_t b = 0; b < 8; b++) {
        const uint16_t *usual = ones[t->first >> (56 - 8 * b) & 255];
        if (memcmp(t->rings + 8 * b, usual, sizeof *ones) == 0) continue;
        t->got &= ~(255ull << (56 - 8 * b));
        if (!good_pixels(j, t, 8 * b, 8)) return 0;
    }
    return 1;
}

/* Whether a row with shadow has good rings. Notes whether a part pixel of it is unheld. */
static int good_row(struct judged *j, size_t y)
{
    const struct stack *s = j->pair.s;
    row shadow = j->pair.shadow[y + 1], first = row_and(beside(j->pair.seeds, y), shadow);
    row below = row_at(j->below + y * s->bytes, s->bytes);
    if (s->surely == 0 && row_any(first)) first = row_and(first, *near_once(j, y));
    for (size_t x = 0, k = 0; x < s->w; x += 64, k++) {
        struct word t = {y, x, j->rings + y * s->w + x, shadow.v[k], first.v[k], 0};
        int good = x + 64 > s->w ? good_pixels(j, &t, 0, s->w - x) : t.shadow == 0 ? no_ring(t.rings, 64) : good_word(j, &t);
        if (!good) return 0;
        j->hangs |= (t.shadow & ~below.v[k] & ~t.got) != 0;
    }
    return 1;
}

static int good_rings(struct judged *j)
{
    size_t w = j->pair.s->w, next = 0;
    for (size_t k = 0; k < j->pair.count; k++) {
        size_t y = j->pair.rows[k];
        if (!no_ring(j->rings + next * w, (y - next) * w) || !good_row(j, y)) return 0;
        next = y + 1;
    }
    return no_ring(j->rings + next * w, (j->pair.s->h - next) * w);
}

/* ---- First places, pixel by pixel ---- */

static int filled(const struct stack *s, const uint8_t *plane, size_t y, size_t x)
{
    return plane[y * s->bytes + x / 8] >> (7 - x % 8) & 1;
}

/* Whether a neighbour is a seed, with ring 0 as a seed must have. */
static int leans_on_seed(const struct judged *j, size_t y, size_t x)
{
    const struct stack *s = j->pair.s;
    for (size_t r = y > 0 ? y - 1 : y; r < s->h && r <= y + 1; r++)
        for (size_t c = x > 0 ? x - 1 : x; c < s->w && c <= x + 1; c++)
            if (j->rings[r * s->w + c] == 0 && filled(s, j->pair.low, r, c) && filled(s, j->pair.up, r, c)) return 1;
    return 0;
}

static int is_bad(struct judged *j, size_t y, size_t x)
{
    const struct stack *s = j->pair.s;
    unsigned v = j->rings[y * s->w + x];
    if (v == 0) return 0;
    if (!filled(s, j->pair.up, y, x) || filled(s, j->pair.low, y, x)) return 1;
    if ((near_once(j, y)->v[x / 64] >> (63 - x % 64) & 1) == 0) return 1;
    return v == 1 ? !leans_on_seed(j, y, x) : !leans(j, y, x, v - 1);
}

static int is_unheld(struct judged *j, size_t y, size_t x)
{
    const struct stack *s = j->pair.s;
    int above = filled(s, j->pair.up, y, x) || filled(s, j->above, y, x);
    return above && !filled(s, j->pair.low, y, x) && !filled(s, j->below, y, x) && j->rings[y * s->w + x] == 0;
}

static kg_answer first_bad(struct judged *j, size_t layer)
{
    for (size_t y = 0; y < j->pair.s->h; y++)
        for (size_t x = 0; x < j->pair.s->w; x++)
            if (is_bad(j, y, x)) return told(10, layer, y, x);
    return 0;
}

/* 11 for a pixel of the part, 19 for one of the support. */
static kg_answer first_unheld(struct judged *j, size_t layer)
{
    for (size_t y = 0; y < j->pair.s->h; y++)
        for (size_t x = 0; x < j->pair.s->w; x++)
            if (is_unheld(j, y, x)) return told(filled(j->pair.s, j->pair.up, y, x) ? 11 : 19, layer, y, x);
    return 0;
}

/* ---- A stack ---- */

/* The first bad ring of the pair, or else what was found before, or else its first unheld pixel. */
static kg_answer judge_pair(struct judged *j, size_t layer, kg_answer before)
{
    const struct stack *s = j->pair.s;
    memset(j->known, 0, s->h);
    int good = good_rings(j);
    kg_answer found = !good ? first_bad(j, layer) : j->hangs && before == 0 ? first_unheld(j, layer) : before;
    empty_rows(&j->pair, j->pair.shadow);
    return found;
}

static kg_answer judge(const struct stack *s, const uint8_t *part, const uint8_t *support, const uint16_t *rings)
{
    static struct judged j;
    make_ones();
    kg_answer found = overlap(s, part, support);
    for (size_t i = 0; i + 1 < s->n && kg_number(found) != 9 && kg_number(found) != 10; i++) {
        const uint8_t *low = part + i * s->plane, *up = low + s->plane;
        j.below = support + i * s->plane;
        j.above = j.below + s->plane;
        j.rings = rings + i * s->w * s->h;
        if (!look(low, up, j.below, j.above, s->plane, &j.hangs) && !j.hangs && no_ring(j.rings, s->w * s->h)) continue;
        open_pair(&j.pair, s, low, up);
        found = judge_pair(&j, i + 1, found);
    }
    return found;
}

kg_answer tuned_check(uint64_t w, uint64_t h, uint64_t n, uint32_t pitch, uint32_t overhang,
                      const uint8_t *part, uint64_t part_len,
                      const uint8_t *support, uint64_t support_len,
                      const uint16_t *rings, uint64_t rings_len)
{
    struct stack s;
    unsigned number = settle(&s, w, h, n, pitch, overhang);
    if (number == 0) number = lengths(&s, part_len, support_len, rings_len);
    if (number != 0) return number;
    kg_answer padding = bad_padding(&s, part, 7);
    if (padding == 0) padding = bad_padding(&s, support, 8);
    return padding != 0 ? padding : judge(&s, part, support, rings);
}
