/* What the makers of trials share. */
#ifndef MAKE_H
#define MAKE_H

#include "trial.h"

#define TWO_32 ((uint64_t)1 << 32)

/* make.c */
void pick_settings_of(struct dice *d, struct trial *t, uint32_t reach); /* a pitch and an overhang with the given reach, 0 to 32 */
void pick_settings(struct dice *d, struct trial *t);
void lend_filled(struct dice *d, struct trial *t);                      /* lends what the call fills, scribbled */
void draw_lent(struct dice *d, struct trial *t);                        /* lends a part of the trial's size */
void plan_by_peer(struct trial *t);                                     /* lends support and rings as the peer plans them */
void write_by_peer(struct dice *d, struct trial *t, int stored);        /* lends a good file of the part, and what it was made of */
void lend_scribbled(struct dice *d, struct trial *t, enum lent which, uint64_t len);

/* spoil.c */
void spoil_settings(struct dice *d, struct trial *t);
void spoil_reach(struct dice *d, struct trial *t);                    /* 33 or more */
void spoil_length(struct dice *d, struct trial *t, enum lent which);
void spoil(struct dice *d, struct trial *t);                          /* one to three faults of numbers, lengths, padding */

/* make_clean.c */
uint64_t some_gap(struct dice *d);                                    /* 0 to 32 */
void draw_gaps(struct dice *d, struct trial *t);                      /* onto a lent part: thin gaps in the support under it */
int small_clean(struct dice *d, struct trial *t, uint64_t *number);   /* the number-th, or 0 and so many less */
int hole_case(struct dice *d, struct trial *t, uint64_t *number);

/* make_posts.c */
uint32_t some_radius(struct dice *d, const struct trial *t);          /* by the trial's pitch, its reach being 0 to 32 */
void draw_layers(struct dice *d, struct trial *t);                    /* onto a lent part: something to hold below each layer */
int small_posts(struct dice *d, struct trial *t, uint64_t *number);   /* the number-th, or 0 and so many less */
int table_case(struct dice *d, struct trial *t, uint64_t *number);
int tower_case(struct dice *d, struct trial *t, uint64_t *number);

/* make_padding.c */
void spoil_padding(struct dice *d, uint8_t *stack, uint64_t w, uint64_t rows); /* of one to four rows, where there is any */
int padding_case(struct dice *d, struct trial *t, uint64_t *number);

/* make_clean.c, make_posts.c, make_check.c, make_file.c: whole trials, whose size and settings are picked */
void make_clean(struct dice *d, struct trial *t);
void make_posts(struct dice *d, struct trial *t);
void make_check(struct dice *d, struct trial *t);
void make_file(struct dice *d, struct trial *t);
void make_read(struct dice *d, struct trial *t);
void make_copy_rings(struct dice *d, struct trial *t);

#endif
