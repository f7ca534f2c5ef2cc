/* A record, all numbers little-endian and 8 bytes wide: case, call, place, skew, null_for_empty, w, h, n, pitch, overhang, gap, radius,
 * answer; then for each buffer that the call uses, in the order of enum lent: elements, bytes held, whether they change, the bytes before,
 * and the bytes after where they change.
 */
#include "record.h"

#include <stdlib.h>
#include <string.h>

static void put(FILE *to, const void *bytes, uint64_t count)
{
    if (count > 0 && fwrite(bytes, 1, count, to) != count) {
        fputs("driver: the record cannot be written\n", stderr);
        exit(2);
    }
}

static void put_number(FILE *to, uint64_t number)
{
    uint8_t bytes[8];
    for (int k = 0; k < 8; k++) bytes[k] = (uint8_t)(number >> 8 * k);
    put(to, bytes, sizeof bytes);
}

static void put_buffer(FILE *to, const struct buffer *b, const uint8_t *after)
{
    int changes = b->held > 0 && memcmp(b->bytes, after, b->held) != 0;
    put_number(to, b->len);
    put_number(to, b->held);
    put_number(to, (uint64_t)changes);
    put(to, b->bytes, b->held);
    if (changes) put(to, after, b->held);
}

void record(FILE *to, uint64_t number, const struct trial *t, const struct outcome *right)
{
    uint64_t head[] = {number, t->call, t->place, t->skew, (uint64_t)t->null_for_empty, t->w, t->h, t->n, t->pitch, t->overhang,
                       t->gap, t->radius, right->answer};
    for (size_t k = 0; k < sizeof head / sizeof *head; k++) put_number(to, head[k]);
    for (int which = 0; which < LENTS; which++)
        if (uses(t->call, which)) put_buffer(to, &t->lent[which], right->after[which]);
}
