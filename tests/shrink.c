/* Makes a failing trial smaller, as long as library and peer still differ: layers, rows and columns are left out, then lengths are cut,
 * settings made plain, and bytes, bits and rings cleared.
 */
#include "trial.h"

#include <stdlib.h>
#include <string.h>

static double deadline;

static int time_left(void) { return now() < deadline; }

/* Takes the smaller trial where it still fails, frees it where not. */
static int keep(struct trial *t, struct trial *smaller)
{
    if (differs(smaller)) {
        trial_free(t);
        *t = *smaller;
        return 1;
    }
    trial_free(smaller);
    return 0;
}

/* ---- Leaving out layers, rows, columns ---- */

enum side { COLUMNS, ROWS, LAYERS, SIDES };

/* What is left out: `count` of a side, from `from` on. */
struct cut {
    enum side side;
    uint64_t from, count;
};

static uint64_t *side_of(struct trial *t, enum side side) { return side == COLUMNS ? &t->w : side == ROWS ? &t->h : &t->n; }

/* The number before the cut of what has number k after it. */
static uint64_t before(struct cut c, enum side side, uint64_t k) { return side == c.side && k >= c.from ? k + c.count : k; }

/* The padding of a row, as far as the smaller row has room for it. */
static uint8_t padding_for(const struct trial *small, const struct trial *t, uint8_t last_byte)
{
    if (small->w % 8 == 0 || t->w % 8 == 0) return 0;
    return (uint8_t)(last_byte & (0xFF >> t->w % 8) & (0xFF >> small->w % 8));
}

static uint8_t *stack_without(const struct trial *small, const struct trial *t, struct cut c, const uint8_t *stack)
{
    uint64_t bytes = row_bytes_of(t->w), fewer = row_bytes_of(small->w);
    uint8_t *out = room(stack_bytes_of(small));
    for (uint64_t layer = 0; layer < small->n; layer++)
        for (uint64_t row = 0; row < small->h; row++) {
            uint64_t old_layer = before(c, LAYERS, layer), old_row = before(c, ROWS, row);
            uint8_t last_byte = stack[(old_layer * t->h + old_row) * bytes + bytes - 1];
            for (uint64_t column = 0; column < small->w; column++)
                set_pixel(out, small->w, small->h, layer, row, column,
                          pixel(stack, t->w, t->h, old_layer, old_row, before(c, COLUMNS, column)));
            out[(layer * small->h + row) * fewer + fewer - 1] |= padding_for(small, t, last_byte);
        }
    return out;
}

static uint8_t *rings_without(const struct trial *small, const struct trial *t, struct cut c, const uint8_t *rings)
{
    uint8_t *out = room(2 * ring_count_of(small));
    uint64_t k = 0;
    if (c.side == LAYERS && c.from + c.count == t->n) c.from--;
    for (uint64_t plane = 0; plane + 1 < small->n; plane++)
        for (uint64_t row = 0; row < small->h; row++)
            for (uint64_t column = 0; column < small->w; column++, k++) {
                uint64_t was = (before(c, LAYERS, plane) * t->h + before(c, ROWS, row)) * t->w + before(c, COLUMNS, column);
                memcpy(out + 2 * k, rings + 2 * was, 2);
            }
    return out;
}

/* Cuts a lent buffer to fit the smaller size: to `rest` where that is given, else at its end, as wrong in length as it was before. */
static void cut_buffer(struct trial *small, const struct trial *t, enum lent which, uint64_t full, uint64_t fits, uint8_t *rest)
{
    uint64_t len = t->lent[which].len;
    if (len + fits < full) return;
    if (is_long(&t->lent[which], which))
        small->lent[which].len = len + fits - full;
    else if (rest != NULL)
        buffer_put(small, which, rest, fits);
    else
        buffer_make(small, which, len + fits - full);
    free(rest);
}

static void cut_stack(struct trial *small, const struct trial *t, struct cut c, enum lent which)
{
    const struct buffer *b = &t->lent[which];
    uint64_t full = stack_bytes_of(t);
    if (b->len == 0) return;
    cut_buffer(small, t, which, full, stack_bytes_of(small), b->len == full ? stack_without(small, t, c, b->bytes) : NULL);
}

static void cut_rings(struct trial *small, const struct trial *t, struct cut c)
{
    const struct buffer *b = &t->lent[RING_PLANES];
    uint64_t full = ring_count_of(t);
    if (b->len == 0) return;
    cut_buffer(small, t, RING_PLANES, full, ring_count_of(small), b->len == full ? rings_without(small, t, c, b->bytes) : NULL);
}

static void cut_stacks(struct trial *small, const struct trial *t, struct cut c)
{
    int stored = t->lent[SUPPORT_STACK].len != 0;
    cut_stack(small, t, c, PART_STACK);
    cut_stack(small, t, c, SUPPORT_STACK);
    cut_stack(small, t, c, CLEANED_STACK);
    cut_stack(small, t, c, POSTS_STACK);
    cut_rings(small, t, c);
    if (t->call == WRITE) cut_buffer(small, t, OUT, job_bytes_of(t, stored), job_bytes_of(small, stored), NULL);
}

/* ---- The same inside a job file ---- */

static uint64_t get(const uint8_t *at, unsigned bytes)
{
    uint64_t number = 0;
    while (bytes-- > 0) number = number << 8 | *at++;
    return number;
}

static void put(uint8_t *at, uint64_t number, unsigned bytes)
{
    while (bytes-- > 0) *at++ = (uint8_t)(number >> 8 * bytes);
}

/* A file that is taken apart and put together smaller. */
struct rebuild {
    const uint8_t *from;
    uint64_t left;
    uint8_t *to;
    uint64_t length;
};

static void pass_on(struct rebuild *b, uint64_t bytes)
{
    if (bytes > 0) memcpy(b->to + b->length, b->from, bytes);
    b->from += bytes;
    b->left -= bytes;
    b->length += bytes;
}

/* A count, off by as much as it was before. */
static uint64_t pass_count(struct rebuild *b, uint64_t right, uint64_t now_right)
{
    uint64_t count = get(b->from, 4);
    pass_on(b, 4);
    if (count != 0) put(b->to + b->length - 4, count - right + now_right, 4);
    return count;
}

static void pass_contents(struct rebuild *b, uint8_t *smaller, uint64_t bytes, uint64_t now_bytes)
{
    if (now_bytes > 0) memcpy(b->to + b->length, smaller, now_bytes);
    free(smaller);
    b->from += bytes;
    b->left -= bytes;
    b->length += now_bytes;
}

static void rebuild_sections(struct rebuild *b, const struct trial *small, const struct trial *t, struct cut c)
{
    uint64_t bytes = stack_bytes_of(t), fewer = stack_bytes_of(small);
    for (int section = 2; section <= 3; section++) {
        if (b->left < 4 || (pass_count(b, t->n * t->h, small->n * small->h) == 0 && section == 2)) return;
        if (section == 3 && get(b->from - 4, 4) == 0) break;
        if (b->left < bytes) return;
        pass_contents(b, stack_without(small, t, c, b->from), bytes, fewer);
    }
    if (b->left < 4 || pass_count(b, ring_count_of(t), ring_count_of(small)) == 0 || t->n < 2) return;
    if (b->left < 2 * ring_count_of(t)) return;
    pass_contents(b, rings_without(small, t, c, b->from), 2 * ring_count_of(t), 2 * ring_count_of(small));
}

/* The size that a file tells, where it has one in range. */
static int size_of_file(struct trial *t)
{
    const struct buffer *b = &t->lent[JOB_FILE];
    if (b->held < 14 || is_long(b, JOB_FILE)) return 0;
    t->w = get(b->bytes + 4, 2);
    t->h = get(b->bytes + 6, 2);
    t->n = get(b->bytes + 8, 2);
    return size_in_range(t);
}

static void cut_file(struct trial *small, const struct trial *t, struct cut c)
{
    struct rebuild b;
    b.from = t->lent[JOB_FILE].bytes;
    b.left = t->lent[JOB_FILE].held;
    b.to = room(b.left);
    b.length = 0;
    pass_on(&b, 14);
    put(b.to + 4, small->w, 2);
    put(b.to + 6, small->h, 2);
    put(b.to + 8, small->n, 2);
    rebuild_sections(&b, small, t, c);
    pass_on(&b, b.left);
    buffer_put(small, JOB_FILE, b.to, b.length);
    free(b.to);
    if (t->call == COPY_RINGS) cut_rings(small, t, c);
}

static int leave_out(struct trial *t, struct cut c)
{
    struct trial small;
    trial_copy(&small, t);
    *side_of(&small, c.side) -= c.count;
    if (uses(t->call, JOB_FILE)) cut_file(&small, t, c);
    else cut_stacks(&small, t, c);
    return keep(t, &small);
}

static int leave_out_sides(struct trial *t)
{
    int better = 0;
    if (uses(t->call, JOB_FILE) ? !size_of_file(t) : t->call == REACH || !size_in_range(t)) return 0;
    for (int side = LAYERS; side >= COLUMNS; side--)
        for (uint64_t count = *side_of(t, side) / 2; count > 0; count /= 2)
            for (uint64_t from = 0; from + count <= *side_of(t, side) && count < *side_of(t, side) && time_left();) {
                struct cut c;
                c.side = (enum side)side;
                c.from = from;
                c.count = count;
                if (leave_out(t, c)) better = 1;
                else from += count;
            }
    return better;
}

/* ---- Cutting lengths ---- */

static int cut_bytes(struct trial *t, enum lent which, uint64_t from, uint64_t count)
{
    struct trial small;
    struct buffer *b = &small.lent[which];
    uint64_t width = widths[which];
    trial_copy(&small, t);
    memmove(b->bytes + from * width, b->bytes + (from + count) * width, b->held - (from + count) * width);
    buffer_make(&small, which, b->len - count);
    return keep(t, &small);
}

static int cut_lengths(struct trial *t)
{
    int better = 0;
    for (int which = 0; which < LENTS; which++) {
        struct buffer *b = &t->lent[which];
        if (!uses(t->call, which) || is_long(b, which)) continue;
        for (uint64_t count = b->len; count > 0; count /= 2)
            for (uint64_t from = 0; from + count <= b->len && time_left();) {
                if (cut_bytes(t, which, from, count)) better = 1;
                else from += count;
            }
    }
    return better;
}

/* ---- Plain numbers ---- */

static int try_settings(struct trial *t, uint32_t pitch, uint32_t overhang)
{
    struct trial small;
    if (t->pitch == pitch && t->overhang == overhang) return 0;
    trial_copy(&small, t);
    small.pitch = pitch;
    small.overhang = overhang;
    return keep(t, &small);
}

/* Pitch 10 or 100 and the least overhang that still fails, of whole micrometres or of halves of a pixel. */
static int plain_settings(struct trial *t)
{
    uint32_t pitch = t->call == REACH ? 10 : 100, step = t->call == REACH ? 1 : 50;
    if (uses(t->call, JOB_FILE)) return 0;
    for (uint32_t overhang = 0; overhang <= 80 * step; overhang += step) {
        if (t->pitch == pitch && t->overhang <= overhang) return 0;
        if (try_settings(t, pitch, overhang)) return 1;
    }
    return 0;
}

/* The least gap that still fails. */
static int plain_gap(struct trial *t)
{
    for (uint64_t gap = 0; gap < t->gap && gap <= 33; gap++) {
        struct trial small;
        trial_copy(&small, t);
        small.gap = gap;
        if (keep(t, &small)) return 1;
    }
    return 0;
}

/* The least radius that still fails, of halves of a pixel where the pitch is plain. */
static int plain_radius(struct trial *t)
{
    uint32_t step = t->pitch == 100 ? 50 : 1;
    for (uint32_t radius = 0; radius < t->radius && radius <= 80 * step; radius += step) {
        struct trial small;
        trial_copy(&small, t);
        small.radius = radius;
        if (keep(t, &small)) return 1;
    }
    return 0;
}

/* Sizes that are out of range anyway, or stand beside such a one. */
static int plain_sizes(struct trial *t)
{
    static const uint64_t plain[] = {0, 1, 257, 513, 65537, ((uint64_t)1 << 32) + 1};
    int better = 0;
    if (uses(t->call, JOB_FILE) || t->call == REACH || size_in_range(t)) return 0;
    for (int side = COLUMNS; side < SIDES; side++)
        for (size_t k = 0; k < sizeof plain / sizeof *plain && plain[k] < *side_of(t, (enum side)side); k++) {
            struct trial small;
            trial_copy(&small, t);
            *side_of(&small, (enum side)side) = plain[k];
            if (!keep(t, &small)) continue;
            better = 1;
            break;
        }
    return better;
}

/* ---- Clearing contents ---- */

static int try_byte(struct trial *t, enum lent which, uint64_t at, uint8_t byte)
{
    uint8_t was = t->lent[which].bytes[at];
    if (was == byte) return 0;
    t->lent[which].bytes[at] = byte;
    if (differs(t)) return 1;
    t->lent[which].bytes[at] = was;
    return 0;
}

static int clear_stretch(struct trial *t, enum lent which, uint64_t from, uint64_t count)
{
    struct buffer *b = &t->lent[which];
    uint8_t *was;
    int set = 0;
    for (uint64_t k = 0; k < count; k++) set |= b->bytes[from + k];
    if (!set) return 0;
    was = room(count);
    memcpy(was, b->bytes + from, count);
    memset(b->bytes + from, 0, count);
    set = differs(t);
    if (!set) memcpy(b->bytes + from, was, count);
    free(was);
    return set;
}

static int clear_bits(struct trial *t, enum lent which)
{
    int better = 0;
    for (uint64_t at = 0; at < t->lent[which].held; at++)
        for (unsigned bit = 128; bit > 0 && time_left(); bit /= 2)
            if (t->lent[which].bytes[at] & bit) better |= try_byte(t, which, at, (uint8_t)(t->lent[which].bytes[at] & ~bit));
    return better;
}

static int lower_rings(struct trial *t)
{
    struct buffer *rings = &t->lent[RING_PLANES];
    int better = 0;
    for (uint64_t k = 0; 2 * k + 1 < rings->held; k++) {
        unsigned was = ring_at(rings, k);
        for (unsigned ring = 1; ring < 4 && ring < was && time_left(); ring++) {
            ring_put(rings, k, ring);
            if (differs(t)) {
                better = 1;
                break;
            }
            ring_put(rings, k, was);
        }
    }
    return better;
}

static int clear_contents(struct trial *t)
{
    int better = 0;
    for (int which = 0; which < LENTS; which++) {
        uint64_t held = t->lent[which].held;
        if (!uses(t->call, which)) continue;
        for (uint64_t count = held; count > 0; count /= 2)
            for (uint64_t from = 0; from + count <= held && time_left(); from += count) better |= clear_stretch(t, which, from, count);
        better |= which == RING_PLANES ? lower_rings(t) : clear_bits(t, which);
    }
    return better;
}

static void plain_place(struct trial *t)
{
    struct trial small;
    trial_copy(&small, t);
    small.place = BETWEEN;
    small.skew = 0;
    small.null_for_empty = 0;
    keep(t, &small);
}

void shrink(struct trial *t, double seconds)
{
    int better = 1;
    deadline = now() + seconds;
    plain_place(t);
    while (better && time_left()) {
        better = leave_out_sides(t);
        better |= plain_settings(t);
        better |= plain_gap(t);
        better |= plain_radius(t);
        better |= plain_sizes(t);
        better |= cut_lengths(t);
        better |= clear_contents(t);
    }
}
