/* Facts about the calls of the library: what one call answers, held against what its others say of the same part; and what a refusal
 * carries, held against what was lent. */
#include "trial.h"

#include <string.h>

/* ---- Cleaning ---- */

static int alike(const uint8_t *a, const uint8_t *b, uint64_t bytes) { return bytes == 0 || memcmp(a, b, bytes) == 0; }

/* Whether every pixel of one stack is in the other. */
static int contains(const uint8_t *all, const uint8_t *some, uint64_t bytes)
{
    for (uint64_t k = 0; k < bytes; k++)
        if (some[k] & ~all[k]) return 0;
    return 1;
}

/* Asks the library another call on the part of a trial, with the given support and rings. */
static void ask_other(const struct trial *t, enum call call, uint8_t *support, uint8_t *rings, struct outcome *o)
{
    struct trial other = *t;
    other.call = call;
    other.lent[SUPPORT_STACK].bytes = support;
    other.lent[RING_PLANES].bytes = rings;
    call_library(&other, o);
}

static int answers_0(const struct outcome *o) { return o->signal == 0 && o->trespass == NULL && o->answer == 0; }

static int is_as_planned(const struct trial *t, const struct outcome *cleaned)
{
    struct outcome planned;
    ask_other(t, PLAN, t->lent[SUPPORT_STACK].bytes, t->lent[RING_PLANES].bytes, &planned);
    return answers_0(&planned)
           && alike(planned.after[SUPPORT_STACK], cleaned->after[SUPPORT_STACK], t->lent[SUPPORT_STACK].held)
           && alike(planned.after[RING_PLANES], cleaned->after[RING_PLANES], t->lent[RING_PLANES].held);
}

static int is_accepted(const struct trial *t, const struct outcome *cleaned)
{
    struct outcome judged;
    ask_other(t, CHECK, cleaned->after[CLEANED_STACK], cleaned->after[RING_PLANES], &judged);
    return answers_0(&judged);
}

static const char *broken_cleaning(const struct trial *t, const struct outcome *right)
{
    const uint8_t *support = right->after[SUPPORT_STACK], *cleaned = right->after[CLEANED_STACK];
    uint64_t bytes = t->lent[CLEANED_STACK].held;
    if (!contains(cleaned, support, bytes)) return "cleaned support does not hold all of the support";
    if (t->gap == 0 && !alike(cleaned, support, bytes)) return "a gap of 0 changes the support";
    if (!is_as_planned(t, right)) return "plan gives other support or rings";
    if (!is_accepted(t, right)) return "check does not accept cleaned support";
    return NULL;
}

/* ---- Posts ---- */

enum { FLOODED = 1600 };

/* One layer's posts, the pixels above it that the overhang leaves, and those of them that are joined to a post. */
struct held {
    uint8_t posts[FLOODED], left[FLOODED], joined[FLOODED];
};

/* Whether a pixel is within the radius of some post. */
static int in_radius(const struct trial *t, const struct held *k, uint64_t at)
{
    uint64_t pitch = t->pitch, radius = t->radius;
    for (uint64_t p = 0; p < t->w * t->h; p++) {
        uint64_t dr = p / t->w - at / t->w, dc = p % t->w - at % t->w; /* squares are the same modulo 2^64 */
        if (k->posts[p] && (dr * dr + dc * dc) * pitch * pitch <= radius * radius) return 1;
    }
    return 0;
}

/* Whether a pixel touches a post or a pixel that is joined to one. */
static int touches_joined(const struct trial *t, const struct held *k, uint64_t at)
{
    uint64_t row = at / t->w, column = at % t->w;
    for (uint64_t r = row > 0 ? row - 1 : 0; r <= row + 1 && r < t->h; r++)
        for (uint64_t c = column > 0 ? column - 1 : 0; c <= column + 1 && c < t->w; c++)
            if (k->posts[r * t->w + c] || k->joined[r * t->w + c]) return 1;
    return 0;
}

static int is_layer_held(const struct trial *t, struct held *k)
{
    int more = 1;
    while (more) {
        more = 0;
        for (uint64_t at = 0; at < t->w * t->h; at++)
            if (k->left[at] && !k->posts[at] && !k->joined[at] && touches_joined(t, k, at) && in_radius(t, k, at))
                k->joined[at] = 1, more = 1;
    }
    for (uint64_t at = 0; at < t->w * t->h; at++)
        if (k->left[at] && !k->posts[at] && !k->joined[at]) return 0;
    return 1;
}

/* Whether every pixel that the overhang leaves is a post below it or joined to one; rings are those of plan. */
static int is_held(const struct trial *t, const uint8_t *posts, const uint8_t *ring_bytes)
{
    const uint8_t *part = t->lent[PART_STACK].bytes;
    uint64_t plane = t->w * t->h;
    for (uint64_t layer = 0; layer + 1 < t->n; layer++) {
        struct held k;
        memset(&k, 0, sizeof k);
        for (uint64_t at = 0; at < plane; at++) {
            uint64_t row = at / t->w, column = at % t->w, ring = layer * plane + at;
            int excused = ring_bytes[2 * ring] != 0 || ring_bytes[2 * ring + 1] != 0;
            k.posts[at] = (uint8_t)pixel(posts, t->w, t->h, layer, row, column);
            k.left[at] = pixel(part, t->w, t->h, layer + 1, row, column) && !pixel(part, t->w, t->h, layer, row, column) && !excused;
        }
        if (!is_layer_held(t, &k)) return 0;
    }
    return 1;
}

/* Whether every post above layer 0 has a post or part below it. */
static int is_standing(const struct trial *t, const uint8_t *posts)
{
    const uint8_t *part = t->lent[PART_STACK].bytes;
    uint64_t plane = t->h * row_bytes_of(t->w);
    for (uint64_t k = plane; k < t->n * plane; k++)
        if (posts[k] & ~(posts[k - plane] | part[k - plane])) return 0;
    return 1;
}

/* Asks the library for the plan of a trial's part. What it answers stays until the next call. */
static void ask_plan(const struct trial *t, struct outcome *planned)
{
    struct trial other;
    memset(&other, 0, sizeof other);
    other.call = PLAN;
    other.w = t->w;
    other.h = t->h;
    other.n = t->n;
    other.pitch = t->pitch;
    other.overhang = t->overhang;
    buffer_put(&other, PART_STACK, t->lent[PART_STACK].bytes, stack_bytes_of(t));
    buffer_make(&other, SUPPORT_STACK, stack_bytes_of(t));
    buffer_make(&other, RING_PLANES, ring_count_of(t));
    call_library(&other, planned);
    trial_free(&other);
}

static const char *broken_posts(const struct trial *t, const struct outcome *right)
{
    const uint8_t *posts = right->after[POSTS_STACK];
    uint64_t bytes = t->lent[POSTS_STACK].held;
    struct outcome planned;
    ask_plan(t, &planned);
    if (!answers_0(&planned)) return "plan refuses a part that has posts";
    if (!contains(planned.after[SUPPORT_STACK], posts, bytes)) return "a post is no planned support";
    if (t->radius < t->pitch && !alike(planned.after[SUPPORT_STACK], posts, bytes)) return "posts within no radius are not the planned support";
    if (!is_standing(t, posts)) return "a post stands neither on a post nor on part";
    if (t->w * t->h > FLOODED) return NULL;
    return is_held(t, posts, planned.after[RING_PLANES]) ? NULL : "a pixel that the overhang leaves is joined to no post";
}

/* ---- Refusals ---- */

/* Whether check tells the same of the stacks in a file; no support stands for one of none. */
static int is_judged_alike(const struct trial *t, const uint8_t *part, const uint8_t *support, uint64_t answer)
{
    struct trial other;
    struct outcome judged;
    memset(&other, 0, sizeof other);
    other.call = CHECK;
    other.w = t->w;
    other.h = t->h;
    other.n = t->n;
    other.pitch = 100;
    buffer_put(&other, PART_STACK, part, stack_bytes_of(t));
    buffer_make(&other, SUPPORT_STACK, stack_bytes_of(t));
    if (support != NULL) buffer_put(&other, SUPPORT_STACK, support, stack_bytes_of(t));
    buffer_make(&other, RING_PLANES, ring_count_of(t));
    call_library(&other, &judged);
    trial_free(&other);
    return judged.signal == 0 && judged.trespass == NULL && judged.answer == answer;
}

static const char *broken_row(const struct trial *t, uint64_t answer)
{
    const uint8_t *part = looked_at(t, PART_STACK), *support = looked_at(t, SUPPORT_STACK);
    const uint8_t *bad = kg_number(answer) == 7 ? part : support;
    uint64_t told = kg_layer(answer) * t->h + kg_row(answer);
    if (kg_column(answer) != 0) return "a row is told with a column";
    if (bad == NULL) return NULL;
    if (uses(t->call, JOB_FILE))
        return is_judged_alike(t, part, support, answer) ? NULL : "check tells another refusal of what the file holds";
    if (kg_row(answer) < t->h && told == first_padding(bad, t->w, 0, t->n * t->h)) return NULL;
    return "the row told is not the first whose padding is set";
}

static const char *broken_pixel(const struct trial *t, uint64_t answer)
{
    uint64_t layer = kg_layer(answer), row = kg_row(answer), column = kg_column(answer);
    int part, support;
    if (layer >= t->n || row >= t->h || column >= t->w) return "the pixel told is not in the stack";
    part = pixel(t->lent[PART_STACK].bytes, t->w, t->h, layer, row, column);
    support = pixel(t->lent[SUPPORT_STACK].bytes, t->w, t->h, layer, row, column);
    switch (kg_number(answer)) {
    case 9: return part && support ? NULL : "9 is told of a pixel that is not both part and support";
    case 11: return part ? NULL : "11 is told of a pixel that is not part";
    case 19: return support && !part ? NULL : "19 is told of a pixel that is not support alone";
    default: return NULL;
    }
}

static const char *broken_refusal(const struct trial *t, uint64_t answer)
{
    switch (kg_place_parts(answer)) {
    case 3: return broken_pixel(t, answer);
    case 2: return broken_row(t, answer);
    default: return kg_value(answer) == 0 ? NULL : "a refusal without a place carries more than its number";
    }
}

const char *broken_fact(const struct trial *t, const struct outcome *right)
{
    if (t->call == PART || t->call == SUPPORT) return NULL;
    if (kg_number(right->answer) != 0) return broken_refusal(t, right->answer);
    if (t->call == POSTS) return broken_posts(t, right);
    return t->call == CLEAN ? broken_cleaning(t, right) : NULL;
}
