/* Trials: their buffers, sizes, pixels and dice. */
#include "trial.h"

#include <stdio.h>
#include <stdlib.h>
#include <string.h>

const char *const call_names[CALLS] = {"reach", "plan", "clean", "posts", "check", "read", "part", "support", "copy_rings", "write"};
const char *const lent_names[LENTS] = {"part", "support", "rings", "cleaned", "posts", "file", "told", "out"};
const unsigned widths[LENTS] = {1, 1, 2, 1, 1, 1, 8, 1};

int uses(enum call call, enum lent which)
{
    switch (call) {
    case PLAN:
    case CHECK: return which == PART_STACK || which == SUPPORT_STACK || which == RING_PLANES;
    case CLEAN: return which == PART_STACK || which == SUPPORT_STACK || which == RING_PLANES || which == CLEANED_STACK;
    case POSTS: return which == PART_STACK || which == POSTS_STACK;
    case READ: return which == JOB_FILE || which == TOLD;
    case PART:
    case SUPPORT: return which == JOB_FILE;
    case COPY_RINGS: return which == JOB_FILE || which == RING_PLANES;
    case WRITE: return which == PART_STACK || which == SUPPORT_STACK || which == RING_PLANES || which == OUT;
    default: return 0;
    }
}

int writes(enum call call, enum lent which)
{
    switch (call) {
    case PLAN: return which == SUPPORT_STACK || which == RING_PLANES;
    case CLEAN: return which == SUPPORT_STACK || which == RING_PLANES || which == CLEANED_STACK;
    case POSTS: return which == POSTS_STACK;
    case READ: return which == TOLD;
    case COPY_RINGS: return which == RING_PLANES;
    case WRITE: return which == OUT;
    default: return 0;
    }
}

int is_long(const struct buffer *b, enum lent which) { return b->held != b->len * widths[which]; }

/* ---- Buffers ---- */

void *room(uint64_t bytes)
{
    void *got = calloc((size_t)bytes + 1, 1);
    if (got == NULL) {
        fputs("driver: out of memory\n", stderr);
        exit(2);
    }
    return got;
}

/* A buffer of len elements that begins with what it held before and goes on with zeros. */
void buffer_make(struct trial *t, enum lent which, uint64_t len)
{
    struct buffer *b = &t->lent[which];
    uint64_t held = len * widths[which];
    uint8_t *bytes = room(held);
    uint64_t kept = b->held < held ? b->held : held;
    if (kept > 0) memcpy(bytes, b->bytes, kept);
    free(b->bytes);
    b->bytes = bytes;
    b->held = held;
    b->len = len;
}

void buffer_put(struct trial *t, enum lent which, const void *bytes, uint64_t len)
{
    buffer_make(t, which, len);
    if (len > 0) memcpy(t->lent[which].bytes, bytes, len * widths[which]);
}

uint16_t ring_at(const struct buffer *rings, uint64_t k)
{
    uint16_t ring;
    memcpy(&ring, rings->bytes + 2 * k, 2);
    return ring;
}

void ring_put(struct buffer *rings, uint64_t k, unsigned ring)
{
    uint16_t stored = (uint16_t)ring;
    memcpy(rings->bytes + 2 * k, &stored, 2);
}

void trial_copy(struct trial *to, const struct trial *from)
{
    *to = *from;
    for (int which = 0; which < LENTS; which++) {
        const struct buffer *b = &from->lent[which];
        if (b->bytes == NULL) continue;
        to->lent[which].bytes = room(b->held);
        memcpy(to->lent[which].bytes, b->bytes, b->held);
    }
}

void trial_free(struct trial *t)
{
    for (int which = 0; which < LENTS; which++) {
        free(t->lent[which].bytes);
        t->lent[which].bytes = NULL;
        t->lent[which].held = t->lent[which].len = 0;
    }
}

/* ---- Sizes and pixels ---- */

uint64_t row_bytes_of(uint64_t w) { return (w + 7) / 8; }
uint64_t stack_bytes_of(const struct trial *t) { return t->n * t->h * row_bytes_of(t->w); }
uint64_t ring_count_of(const struct trial *t) { return (t->n - 1) * t->w * t->h; }

uint64_t job_bytes_of(const struct trial *t, int stored)
{
    return 26 + stack_bytes_of(t) + (stored ? stack_bytes_of(t) + 2 * ring_count_of(t) : 0);
}

int size_in_range(const struct trial *t)
{
    return t->w >= 1 && t->w <= 256 && t->h >= 1 && t->h <= 256 && t->n >= 1 && t->n <= 512;
}

static int tells_size_of(const uint8_t *file, const struct trial *t)
{
    return file[4] * 256u + file[5] == t->w && file[6] * 256u + file[7] == t->h && file[8] * 256u + file[9] == t->n;
}

const uint8_t *looked_at(const struct trial *t, enum lent which)
{
    const struct buffer *file = &t->lent[JOB_FILE];
    uint64_t bytes = stack_bytes_of(t);
    if (writes(t->call, which)) return NULL;
    if (!uses(t->call, JOB_FILE)) return uses(t->call, which) && t->lent[which].len == bytes ? t->lent[which].bytes : NULL;
    if (!tells_size_of(file->bytes, t)) return NULL;
    if (which == PART_STACK) return file->bytes + 18;
    return file->len > 26 + bytes ? file->bytes + 22 + bytes : NULL;
}

uint64_t first_padding(const uint8_t *stack, uint64_t w, uint64_t from, uint64_t rows)
{
    uint64_t row = from;
    if (w % 8 == 0) return rows;
    while (row < rows && (stack[(row + 1) * row_bytes_of(w) - 1] & 0xFF >> w % 8) == 0) row++;
    return row;
}

int pixel(const uint8_t *stack, uint64_t w, uint64_t h, uint64_t layer, uint64_t row, uint64_t column)
{
    return stack[(layer * h + row) * row_bytes_of(w) + column / 8] >> (7 - column % 8) & 1;
}

void set_pixel(uint8_t *stack, uint64_t w, uint64_t h, uint64_t layer, uint64_t row, uint64_t column, int on)
{
    uint8_t *byte = &stack[(layer * h + row) * row_bytes_of(w) + column / 8];
    uint8_t bit = (uint8_t)(0x80 >> column % 8);
    *byte = (uint8_t)(on ? *byte | bit : *byte & ~bit);
}

/* ---- Dice ---- */

uint64_t throw_dice(struct dice *d)
{
    uint64_t z = d->state += 0x9E3779B97F4A7C15u;
    z = (z ^ z >> 30) * 0xBF58476D1CE4E5B9u;
    z = (z ^ z >> 27) * 0x94D049BB133111EBu;
    return z ^ z >> 31;
}

uint64_t below(struct dice *d, uint64_t bound) { return throw_dice(d) % bound; }
uint64_t between(struct dice *d, uint64_t least, uint64_t most) { return least + below(d, most - least + 1); }
int chance(struct dice *d, unsigned one_in) { return below(d, one_in) == 0; }

void scribble(struct dice *d, uint8_t *bytes, uint64_t len)
{
    for (uint64_t k = 0; k < len; k++) bytes[k] = (uint8_t)throw_dice(d);
}
