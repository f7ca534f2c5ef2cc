/* What the files of the driver share: a trial is one call with its numbers and the buffers that it is lent.
 *
 *   draw.c    draws parts
 *   make.c    makes the trial of a seed and a case number, with spoil.c, make_padding.c, make_clean.c, make_posts.c, make_check.c and make_file.c
 *   lend.c    lends the buffers of a trial to the library and to the peer, and watches the memory around them
 *   facts.c   asks what must hold between calls, and of what a refusal carries
 *   shrink.c  makes a failing trial smaller
 *   pieces.c  the bench pieces and limits, with their answers
 *   met.c     counts what was met
 *   record.c  writes trials down
 *   driver.c  compares, tells
 */
#ifndef TRIAL_H
#define TRIAL_H

#include <signal.h>
#include <stddef.h>
#include <stdint.h>

#include "kitegimlet.h"

enum call { REACH, PLAN, CLEAN, POSTS, CHECK, READ, PART, SUPPORT, COPY_RINGS, WRITE, CALLS };
enum lent { PART_STACK, SUPPORT_STACK, RING_PLANES, CLEANED_STACK, POSTS_STACK, JOB_FILE, TOLD, OUT, LENTS };

extern const char *const call_names[CALLS];
extern const char *const lent_names[LENTS];
extern const unsigned widths[LENTS]; /* bytes of an element */

/* A buffer of len elements. Its first `held` bytes are given; a long one goes on with zeros behind them, every other holds len elements. */
struct buffer {
    uint8_t *bytes;
    uint64_t held, len;
};

/* Where buffers lie: between guard bytes, or with no open memory right before or right after them. */
enum place { BETWEEN, FIRST, LAST, PLACES };

/* What a check trial was made for, if it is accepted. */
enum mark { AS_PLANNED = 1, MORE_SUPPORT = 2, LARGER_RINGS = 4, FEWER_RINGS = 8 };

struct trial {
    enum call call;
    uint64_t w, h, n;
    uint32_t pitch, overhang;
    uint64_t gap;    /* for cleaning; else 0 */
    uint32_t radius; /* for posts; else 0 */
    struct buffer lent[LENTS];
    enum place place;
    unsigned skew;      /* bytes by which byte buffers between guards are off an even address */
    int null_for_empty; /* whether a buffer of 0 elements is lent as a null pointer */
    unsigned marks;
};

int uses(enum call call, enum lent which);
int writes(enum call call, enum lent which);
int is_long(const struct buffer *b, enum lent which);

void *room(uint64_t bytes); /* zeros; never null */
void buffer_make(struct trial *t, enum lent which, uint64_t len);
void buffer_put(struct trial *t, enum lent which, const void *bytes, uint64_t len);
uint16_t ring_at(const struct buffer *rings, uint64_t k);
void ring_put(struct buffer *rings, uint64_t k, unsigned ring);
void trial_copy(struct trial *to, const struct trial *from);
void trial_free(struct trial *t);

/* Sizes of what belongs to a trial's w, h and n, which must be in range. */
uint64_t row_bytes_of(uint64_t w);
uint64_t stack_bytes_of(const struct trial *t);
uint64_t ring_count_of(const struct trial *t);
uint64_t job_bytes_of(const struct trial *t, int stored);
int size_in_range(const struct trial *t);

/* The part or the support that a call looks at, lent or in its file; null where there is none. A file must be a job, right but for padding:
 * null too where its size is not the trial's. */
const uint8_t *looked_at(const struct trial *t, enum lent which);
uint64_t first_padding(const uint8_t *stack, uint64_t w, uint64_t from, uint64_t rows); /* the first such row from one on, or rows */

int pixel(const uint8_t *stack, uint64_t w, uint64_t h, uint64_t layer, uint64_t row, uint64_t column);
void set_pixel(uint8_t *stack, uint64_t w, uint64_t h, uint64_t layer, uint64_t row, uint64_t column, int on);

/* splitmix64 */
struct dice {
    uint64_t state;
};

uint64_t throw_dice(struct dice *d);
uint64_t below(struct dice *d, uint64_t bound); /* 0 to bound - 1 */
uint64_t between(struct dice *d, uint64_t least, uint64_t most);
int chance(struct dice *d, unsigned one_in);
void scribble(struct dice *d, uint8_t *bytes, uint64_t len);

void draw_part(struct dice *d, uint8_t *part, uint64_t w, uint64_t h, uint64_t n); /* onto an empty stack */

enum { LARGEST_CASES = 6 }; /* the first cases have the largest size; they take seconds each */

void make_trial(struct trial *t, uint64_t seed, uint64_t number);

#define ENDLESS_SIGNAL SIGPROF

struct outcome {
    uint64_t answer;
    int signal;             /* what broke the call off, or 0; ENDLESS_SIGNAL where it did not end */
    const char *trespass;   /* what was written that was not lent, or null */
    uint8_t *after[LENTS];  /* the held bytes of each buffer after the call */
};

void lend_open(unsigned patience); /* seconds of processor time after which a call is taken for endless */
int lend_long(void); /* whether long buffers can be lent here */
void call_library(const struct trial *t, struct outcome *o);
void call_peer(const struct trial *t, struct outcome *o);
void outcome_free(struct outcome *of_peer);

/* What should hold of an outcome that is right, with what was lent or with the library's other calls, and does not; or null. */
const char *broken_fact(const struct trial *t, const struct outcome *right);

/* Whether library and peer differ or a fact is broken, and how. The peer's answer and buffers stay in `peer`, for outcome_free. */
enum verdict { SAME, DIFFERENT, ENDLESS };

enum verdict compare(const struct trial *t, struct outcome *peer, char *why, size_t cap);
int differs(const struct trial *t);

void shrink(struct trial *t, double seconds);
double now(void);

int try_pieces(void); /* the number of answers that were not the ones written down */

#endif
