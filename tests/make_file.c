/* Makes trials of the calls on job files: good files, and files that are cut, lengthened, spliced or changed in any part. */
#include "make.h"

#include <string.h>

static void put_big_endian(uint8_t *at, uint64_t number, unsigned bytes)
{
    for (unsigned k = 0; k < bytes; k++) at[k] = (uint8_t)(number >> 8 * (bytes - 1 - k));
}

static uint64_t get_big_endian(const uint8_t *at, unsigned bytes)
{
    uint64_t number = 0;
    for (unsigned k = 0; k < bytes; k++) number = number << 8 | at[k];
    return number;
}

/* Where the counts of the four sections stand in a good file; and its end. */
static void count_places(const struct trial *t, int stored, uint64_t at[5])
{
    at[0] = 0;
    at[1] = 14;
    at[2] = 18 + stack_bytes_of(t);
    at[3] = at[2] + 4 + (stored ? stack_bytes_of(t) : 0);
    at[4] = job_bytes_of(t, stored);
}

static uint64_t hostile_count(struct dice *d, uint64_t was)
{
    switch (below(d, 10)) {
    case 0:
    case 1: return was + 1;
    case 2:
    case 3: return was - 1;
    case 4: return 0;
    case 5: return TWO_32 - 1 - below(d, 8);
    case 6: return was + 65536;
    case 7: return was + ((uint64_t)1 << 31);
    case 8: return below(d, 2 * was + 2);
    default: return throw_dice(d);
    }
}

static void spoil_count(struct dice *d, struct trial *t, int stored)
{
    uint64_t at[5], section = below(d, 4);
    uint8_t *count;
    count_places(t, stored, at);
    count = t->lent[JOB_FILE].bytes + at[section];
    put_big_endian(count, hostile_count(d, get_big_endian(count, 4)), 4);
}

static void spoil_file_settings(struct dice *d, struct trial *t)
{
    static const unsigned hostile[5][4] = {{0, 257, 512, 65535}, {0, 257, 512, 65535}, {0, 513, 32768, 65535}, {0, 9, 1001, 65535},
                                           {10001, 10002, 32768, 65535}};
    uint64_t k = below(d, 5);
    uint8_t *field = t->lent[JOB_FILE].bytes + 4 + 2 * k;
    struct trial other = *t;
    switch (below(d, 4)) {
    case 0: put_big_endian(field, get_big_endian(field, 2) + (chance(d, 2) ? 1 : 65535), 2); break;
    case 1:
        spoil_reach(d, &other);
        put_big_endian(t->lent[JOB_FILE].bytes + 10, other.pitch, 2);
        put_big_endian(t->lent[JOB_FILE].bytes + 12, other.overhang, 2);
        break;
    default: put_big_endian(field, hostile[k][below(d, 4)], 2); break;
    }
}

static void cut_file(struct dice *d, struct trial *t, int stored)
{
    uint64_t at[5], len = t->lent[JOB_FILE].len, cut = below(d, len), past = below(d, 6);
    count_places(t, stored, at);
    if (chance(d, 2)) cut = at[below(d, 5)] + past;
    if (chance(d, 8)) cut = below(d, 20);
    if (cut < len) buffer_make(t, JOB_FILE, cut);
}

static void lengthen_file(struct dice *d, struct trial *t)
{
    uint64_t len = t->lent[JOB_FILE].len, more = chance(d, 4) ? len : between(d, 1, 9);
    if (chance(d, 12)) {
        t->lent[JOB_FILE].len += TWO_32;
        return;
    }
    buffer_make(t, JOB_FILE, len + more);
    if (more == len) memcpy(t->lent[JOB_FILE].bytes + len, t->lent[JOB_FILE].bytes, len);
    else if (chance(d, 2)) scribble(d, t->lent[JOB_FILE].bytes + len, more);
}

static void flip_bits(struct dice *d, struct trial *t)
{
    uint64_t reach = chance(d, 2) && t->lent[JOB_FILE].len > 30 ? 30 : t->lent[JOB_FILE].len;
    for (uint64_t times = between(d, 1, 4); times > 0 && reach > 0; times--) {
        uint64_t at = below(d, reach);
        t->lent[JOB_FILE].bytes[at] ^= (uint8_t)(1 << below(d, 8));
    }
}

static void scribble_file(struct dice *d, struct trial *t)
{
    buffer_make(t, JOB_FILE, below(d, 80));
    scribble(d, t->lent[JOB_FILE].bytes, t->lent[JOB_FILE].len);
    if (chance(d, 2) && t->lent[JOB_FILE].len >= 4) put_big_endian(t->lent[JOB_FILE].bytes, 5, 4);
}

/* The beginning of this file and the end of another. */
static void splice_file(struct dice *d, struct trial *t)
{
    struct trial other;
    uint64_t kept, rest, from;
    memset(&other, 0, sizeof other);
    other.w = chance(d, 2) ? t->w : between(d, 1, 9);
    other.h = chance(d, 2) ? t->h : between(d, 1, 4);
    other.n = chance(d, 2) ? t->n : between(d, 1, 3);
    pick_settings(d, &other);
    draw_lent(d, &other);
    write_by_peer(d, &other, chance(d, 2));
    kept = below(d, t->lent[JOB_FILE].len + 1);
    from = chance(d, 2) && kept < other.lent[JOB_FILE].len ? kept : below(d, other.lent[JOB_FILE].len + 1);
    rest = other.lent[JOB_FILE].len - from;
    buffer_make(t, JOB_FILE, kept);
    buffer_make(t, JOB_FILE, kept + rest);
    memcpy(t->lent[JOB_FILE].bytes + kept, other.lent[JOB_FILE].bytes + from, rest);
    trial_free(&other);
}

static void spoil_file_padding(struct dice *d, struct trial *t, int stored)
{
    uint64_t at[5], which = chance(d, 2) ? 2 : between(d, 1, 3);
    count_places(t, stored, at);
    for (uint64_t section = 1; section <= 2; section++) {
        if (!(which & section) || (section == 2 && !stored)) continue;
        spoil_padding(d, t->lent[JOB_FILE].bytes + at[section] + 4, t->w, t->n * t->h);
    }
}

static void spoil_file(struct dice *d, struct trial *t, int stored)
{
    if (chance(d, 4)) spoil_file_padding(d, t, stored);
    switch (below(d, 12)) {
    case 0:
    case 1: spoil_count(d, t, stored); break;
    case 2: spoil_file_settings(d, t); break;
    case 3:
    case 4: cut_file(d, t, stored); break;
    case 5: lengthen_file(d, t); break;
    case 6: flip_bits(d, t); break;
    case 7: scribble_file(d, t); break;
    case 8: splice_file(d, t); break;
    case 9:
        spoil_count(d, t, stored);
        cut_file(d, t, stored);
        break;
    case 10:
        spoil_file_settings(d, t);
        cut_file(d, t, stored);
        break;
    default: spoil_file_padding(d, t, stored); break;
    }
}

void make_file(struct dice *d, struct trial *t)
{
    int stored = !chance(d, 3);
    draw_lent(d, t);
    write_by_peer(d, t, stored);
    if (chance(d, 2)) spoil_file(d, t, stored);
}

void make_read(struct dice *d, struct trial *t)
{
    static const unsigned lengths[] = {KG_TOLD, KG_TOLD, KG_TOLD, 0, 1, 5, KG_TOLD - 1, KG_TOLD + 1, 16};
    make_file(d, t);
    lend_scribbled(d, t, TOLD, lengths[below(d, sizeof lengths / sizeof *lengths)]);
    if (chance(d, 200) && !is_long(&t->lent[JOB_FILE], JOB_FILE)) {
        lend_scribbled(d, t, TOLD, KG_TOLD + 2);
        t->lent[TOLD].len = TWO_32 + below(d, KG_TOLD);
    }
}

void make_copy_rings(struct dice *d, struct trial *t)
{
    make_file(d, t);
    scribble(d, t->lent[RING_PLANES].bytes, t->lent[RING_PLANES].held);
    if (chance(d, 4) && !is_long(&t->lent[JOB_FILE], JOB_FILE)) spoil_length(d, t, RING_PLANES);
}
