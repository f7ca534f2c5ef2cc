/* What tests/peer.c asks of C's headers, for wasm without a C library: it stands in for stdint.h, inttypes.h, stdio.h and stdlib.h.
 * The peer frees what it allocated last first.
 */
#ifndef BARE_H
#define BARE_H

typedef __UINT8_TYPE__ uint8_t;
typedef __UINT16_TYPE__ uint16_t;
typedef __UINT32_TYPE__ uint32_t;
typedef __UINT64_TYPE__ uint64_t;
typedef __INT64_TYPE__ int64_t;
typedef __SIZE_TYPE__ size_t;

#define NULL ((void *)0)
#define PRIu32 __UINT32_FMTu__
#define PRIu64 __UINT64_FMTu__
#define stderr 0
#define fputs(text, file) ((void)(text), (void)(file))
#define snprintf(text, room, ...) ((void)(room), (text)[0] = 0) /* the report's text: not a call of the library */
#define abort __builtin_trap

enum { ARENA = 1 << 21 }; /* three lists of 65,537 numbers, and more: what the peer holds at a time for posts */
static uint64_t arena[ARENA / 8];
static size_t used; /* of the numbers of the arena */

static void *calloc(size_t count, size_t width)
{
    size_t numbers = (count * width + 7) / 8;
    if (count > ARENA / width || numbers > ARENA / 8 - used) return NULL;
    used += numbers;
    return __builtin_memset(arena + used - numbers, 0, count * width);
}

static void free(void *room) { used = (size_t)((uint64_t *)room - arena); }

#endif
