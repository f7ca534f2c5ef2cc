/* Spoils the numbers, lengths and padding of a trial. */
#include "make.h"

static uint64_t hostile_size(struct dice *d, uint64_t was)
{
    switch (below(d, 12)) {
    case 0: return 0;
    case 1: return 257;
    case 2: return 513;
    case 3: return 65535;
    case 4: return 65536 + was;
    case 5: return TWO_32 + was;
    case 6: return TWO_32 + 8;
    case 7: return ((uint64_t)1 << 63) + was;
    case 8: return ~(uint64_t)0;
    case 9: return 0 - was;
    case 10: return 256 + was;
    default: return throw_dice(d);
    }
}

static void spoil_size(struct dice *d, struct trial *t)
{
    uint64_t *numbers[3];
    uint64_t *one;
    numbers[0] = &t->w;
    numbers[1] = &t->h;
    numbers[2] = &t->n;
    one = numbers[below(d, 3)];
    *one = hostile_size(d, *one);
}

static uint32_t hostile_pitch(struct dice *d, uint32_t was)
{
    static const uint32_t hostile[] = {0, 1, 9, 1001, 65535, 65536, 0x80000000u, 0xFFFFFFFFu};
    uint64_t k = below(d, 10);
    return k < 8 ? hostile[k] : k == 8 ? was + 65536 : (uint32_t)throw_dice(d);
}

static uint32_t hostile_overhang(struct dice *d, uint32_t was)
{
    static const uint32_t hostile[] = {10001, 10002, 65535, 65536, 0x80000000u, 0xFFFFFFFFu};
    uint64_t k = below(d, 8);
    return k < 6 ? hostile[k] : k == 6 ? was + 65536 : (uint32_t)throw_dice(d);
}

void spoil_settings(struct dice *d, struct trial *t)
{
    if (chance(d, 2))
        t->pitch = hostile_pitch(d, t->pitch);
    else
        t->overhang = hostile_overhang(d, t->overhang);
}

/* A reach of 33 or more, often just so. */
void spoil_reach(struct dice *d, struct trial *t)
{
    t->pitch = (uint32_t)between(d, 10, 303);
    t->overhang = 33 * t->pitch + (uint32_t)(chance(d, 2) ? 0 : below(d, 10001 - 33 * t->pitch));
}

static uint64_t wrong_length(struct dice *d, uint64_t was)
{
    switch (below(d, 9)) {
    case 0:
    case 1: return was + 1;
    case 2:
    case 3: return was > 0 ? was - 1 : 1;
    case 4: return was + 8;
    case 5: return was > 8 ? was - 8 : was + 8;
    case 6: return 0;
    case 7: return 2 * was + 1;
    default: return below(d, was + 20);
    }
}

/* Gives a buffer another length. What comes to it is scribbled; a long one is 2^32 elements more than it holds. */
void spoil_length(struct dice *d, struct trial *t, enum lent which)
{
    struct buffer *b = &t->lent[which];
    uint64_t was = b->len, held = b->held, len = wrong_length(d, was);
    if (chance(d, 40)) {
        b->len += TWO_32;
        return;
    }
    buffer_make(t, which, len);
    if (b->held > held) scribble(d, b->bytes + held, b->held - held);
}

static void spoil_stack(struct dice *d, struct trial *t, enum lent which)
{
    if (t->lent[which].len == stack_bytes_of(t)) spoil_padding(d, t->lent[which].bytes, t->w, t->n * t->h);
}

static uint64_t hostile_gap(struct dice *d, uint64_t was)
{
    switch (below(d, 8)) {
    case 0:
    case 1: return 33;
    case 2: return 33 + below(d, 1000);
    case 3: return 256 + was;
    case 4: return 65536 + was;
    case 5: return TWO_32 + was;
    case 6: return ((uint64_t)1 << 63) + was;
    default: return ~(uint64_t)0;
    }
}

/* A radius over the limit, or one whose reach is: 33 pixels just so, or more. */
static uint32_t hostile_radius(struct dice *d, const struct trial *t)
{
    if (t->pitch < 10 || t->pitch > 303 || chance(d, 2)) return hostile_overhang(d, t->radius);
    return chance(d, 2) ? 33 * t->pitch : (uint32_t)between(d, 33 * t->pitch, 10000);
}

static void spoil_posts(struct dice *d, struct trial *t)
{
    if (chance(d, 2)) t->radius = hostile_radius(d, t);
    else spoil_length(d, t, POSTS_STACK);
}

/* What only cleaning has. */
static void spoil_cleaning(struct dice *d, struct trial *t)
{
    if (chance(d, 2)) t->gap = hostile_gap(d, t->gap);
    else spoil_length(d, t, CLEANED_STACK);
}

static int lends_long(const struct trial *t)
{
    for (int which = 0; which < LENTS; which++)
        if (is_long(&t->lent[which], (enum lent)which)) return 1;
    return 0;
}

/* One to three faults of the numbers, lengths and padding of a call on stacks. */
void spoil(struct dice *d, struct trial *t)
{
    for (uint64_t times = between(d, 1, 3); times > 0 && !lends_long(t); times--) {
        if ((t->call == CLEAN || t->call == POSTS) && chance(d, 3)) {
            if (t->call == CLEAN) spoil_cleaning(d, t);
            else spoil_posts(d, t);
            continue;
        }
        switch (below(d, 13)) {
        case 0:
        case 1: spoil_length(d, t, PART_STACK); break;
        case 2:
        case 3: spoil_length(d, t, t->call == POSTS ? POSTS_STACK : SUPPORT_STACK); break;
        case 4:
        case 5:
            if (t->call != POSTS) spoil_length(d, t, RING_PLANES);
            break;
        case 6: spoil_settings(d, t); break;
        case 7: spoil_reach(d, t); break;
        case 8:
            if (size_in_range(t)) spoil_size(d, t);
            break;
        default:
            if (!size_in_range(t)) break;
            if (chance(d, 2)) spoil_stack(d, t, PART_STACK);
            if (chance(d, 2)) spoil_stack(d, t, SUPPORT_STACK);
        }
    }
}
