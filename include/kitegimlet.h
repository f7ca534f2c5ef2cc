/* Kitegimlet: support for 3D printing, planned and judged, from stacks of black-and-white layer images.
 *
 * Every call takes every input, whatever its numbers, lengths and bytes, and ends with a defined answer. No call allocates, keeps
 * anything between calls, or touches memory that it was not lent. Where a call refuses, all lent memory is as it was before.
 * A buffer is a pointer and the number of its elements, all of which must be there, aligned for their type; with 0 elements the
 * pointer may be null. Buffers that a call writes must not overlap any other buffer of that call.
 *
 * Images: a row is (w + 7) / 8 bytes, the highest bit being the leftmost pixel, 1 meaning filled; the unused low bits are its padding and
 * must be 0. A plane is h rows, row 0 first; a stack is n planes, layer 0 first, so n * h * ((w + 7) / 8) bytes.
 * Rings: n - 1 planes of w * h numbers of 16 bits; plane i belongs to the layers i and i + 1. Sizes w, h: 1 to 256; n: 1 to 512. Pitch (pixel
 * width): 10 to 1,000 micrometres; overhang, and the radius of posts: 0 to 10,000 micrometres. The help page docs/REFUSALS.md has every refusal
 * number with what to do about it.
 */
#ifndef KITEGIMLET_H
#define KITEGIMLET_H

#include <stdint.h>

#define KG_VERSION "0.5"

#ifdef __cplusplus
extern "C" {
#endif

/* An answer: the refusal number in bits 0 to 15, 0 for none, and what it tells above it. A refusal carries its number, its place where it has
 * one, and nothing else: 7 tells the first row of the part whose padding is set and 8 that of the support, by layer and then row; 9, 10, 11 and
 * 19 tell a pixel by layer, row and column. All are counted from 0. So a number is asked by kg_number, not by comparing whole answers. */
typedef uint64_t kg_answer;

/* kg_layer and kg_row mean something where the place has two or three parts (kg_place_parts), kg_column where it has three, and kg_value where
 * kg_reach or kg_write gives 0. */
static inline unsigned kg_number(kg_answer a) { return (unsigned)(a & 0xFFFFu); }
static inline unsigned kg_layer(kg_answer a) { return (unsigned)(a >> 16 & 0xFFFFu); }
static inline unsigned kg_row(kg_answer a) { return (unsigned)(a >> 32 & 0xFFFFu); }
static inline unsigned kg_column(kg_answer a) { return (unsigned)(a >> 48 & 0xFFFFu); }
static inline uint64_t kg_value(kg_answer a) { return a >> 16; }

/* How many parts the place of a refusal has: 3 for a pixel, 2 for a row, 0 where it has no place. */
static inline unsigned kg_place_parts(kg_answer a)
{
    switch (kg_number(a)) {
    case 7: case 8: return 2;
    case 9: case 10: case 11: case 19: return 3;
    default: return 0;
    }
}

/* Of sizes that are in range: the bytes of a stack (part, support or posts), and how many ring numbers there are. */
static inline uint64_t kg_stack_bytes(uint64_t w, uint64_t h, uint64_t n) { return n * h * ((w + 7) / 8); }
static inline uint64_t kg_ring_count(uint64_t w, uint64_t h, uint64_t n) { return (n - 1) * w * h; }

/* The reach of an overhang, in whole pixels, overhang / pitch rounded down: kg_value. Refusals 2, 3. */
kg_answer kg_reach(uint32_t pitch, uint32_t overhang);

/* Plans support and rings for a part. A pixel is near part where the squares of the differences in rows and in columns, added, are at most
 * overhang * overhang / (pitch * pitch) rounded down, which can be more than the reach squared; kg_check uses the same rule. Support must
 * have the part's length and rings (n - 1) * w * h numbers; what they held does not matter, and all of both is written. Refusals 1 to 7, 7 with its
 * place. */
kg_answer kg_plan(uint64_t w, uint64_t h, uint64_t n, uint32_t pitch, uint32_t overhang,
                  const uint8_t *part, uint64_t part_len,
                  uint8_t *support, uint64_t support_len,
                  uint16_t *rings, uint64_t rings_len);

/* Plans as kg_plan does, the same bytes of support and rings, and fills `cleaned` with support in which thin gaps are closed: each layer's
 * support is grown by a disc with a radius of `gap` pixels and shrunk by it again, joined with the cleaned layer above, and has no pixel of
 * the part and none that is excused. It holds all of the support, and kg_check accepts it with the same rings. A gap of 0 leaves the
 * support as it is.
 * Support and cleaned must both have the part's length; all three lent buffers are written whole. Refusals 1 to 3, 18 (a radius over 32), 4 to
 * 7, 7 with its place; a wrong length of cleaned is 5 too. */
kg_answer kg_clean(uint64_t w, uint64_t h, uint64_t n, uint32_t pitch, uint32_t overhang, uint64_t gap,
                   const uint8_t *part, uint64_t part_len,
                   uint8_t *support, uint64_t support_len,
                   uint16_t *rings, uint64_t rings_len,
                   uint8_t *cleaned, uint64_t cleaned_len);

/* Fills `posts` with support of single pixels, for resin machines. The top layer has none. Further down the posts of the layer above go down,
 * except where they meet part. A pixel of the part above, over no part and not excused, is left by the overhang: it must be held by posts of
 * the layer below it. The posts gone down take away, together, the left pixels that grow from them: by steps to neighbouring left pixels, all
 * within `radius` of one of these posts. Of what remains the first pixel by row and then column becomes a post, and takes away itself and what
 * grows from it alone, over remaining pixels within the radius; and so on until none remains. Within the radius is at a squared distance of at
 * most radius * radius / (pitch * pitch) rounded down, as near is for an overhang.
 * So each left pixel is a post or is joined to one, and each post above layer 0 stands on a post or on part. With a radius below
 * the pitch the posts are the support of kg_plan; with a larger one kg_check takes a pixel that the radius alone holds for one that hangs (11).
 * Posts must have the part's length; what they held does not matter, and all of them is written. Refusals 1 to 3, 20 (a radius over 10,000, or
 * radius / pitch over 32), 4, 5 (the length of posts), 7 with its place. */
kg_answer kg_posts(uint64_t w, uint64_t h, uint64_t n, uint32_t pitch, uint32_t overhang, uint32_t radius,
                   const uint8_t *part, uint64_t part_len,
                   uint8_t *posts, uint64_t posts_len);

/* Judges support that anyone made: 0 where it holds. Refusals 1 to 8, 7 and 8 with their places; then 9 (a support pixel inside the part),
 * then 10 (a ring number that is wrong), then 11 (a pixel of the part that hangs) or 19 (one of the support), whichever comes first, each
 * with its first place. The layer of 10, 11 and 19 is the upper one of the pair, so the ring stands in plane kg_layer - 1. */
kg_answer kg_check(uint64_t w, uint64_t h, uint64_t n, uint32_t pitch, uint32_t overhang,
                   const uint8_t *part, uint64_t part_len,
                   const uint8_t *support, uint64_t support_len,
                   const uint16_t *rings, uint64_t rings_len);

/* What reading a job file tells, in this order: w, h, n, pitch, overhang, whether support is stored (0 or 1), and the offsets of the first
 * byte after the count of sections 1 to 4 (settings, part, support, rings). */
enum kg_told {
    KG_WIDTH, KG_HEIGHT, KG_LAYERS, KG_PITCH, KG_OVERHANG, KG_STORED, KG_SETTINGS_AT, KG_PART_AT, KG_SUPPORT_AT, KG_RINGS_AT, KG_TOLD
};

/* Reads a job file. Where it is not refused, `told` gets the values of enum kg_told, as many as it has room for; further elements stay.
 * Refusals: 12, 13 and 12 again for each of the four sections in turn, 1, 2, 3 after the first of them; then 14, 7, 8, the
 * last two with their places. */
kg_answer kg_read(const uint8_t *file, uint64_t file_len, uint64_t *told, uint64_t told_len);

/* A stretch of a job file: its offset in the upper half, its length in the lower; no job that is read is longer than 75,366,426 bytes.
 * All 0 where the job is refused, and for support also where none is stored: kg_read tells the two apart. */
typedef uint64_t kg_stretch;

static inline uint64_t kg_offset(kg_stretch s) { return s >> 32; }
static inline uint64_t kg_length(kg_stretch s) { return s & 0xFFFFFFFFu; }

kg_stretch kg_part(const uint8_t *file, uint64_t file_len);
kg_stretch kg_support(const uint8_t *file, uint64_t file_len);

/* Copies the rings out of a job file; `rings` must have exactly the stored number (0 where none is stored). Refusals: those of kg_read,
 * then 6. */
kg_answer kg_copy_rings(const uint8_t *file, uint64_t file_len, uint16_t *rings, uint64_t rings_len);

/* Writes a job at the start of `out` and answers its length: kg_value. Without support its length and that of the rings are 0. A job has
 * 26 + part_len + support_len + 2 * rings_len bytes; bytes of `out` past it stay. Refusals 1 to 8, 7 and 8 with
 * their places, 15, 16. */
kg_answer kg_write(uint64_t w, uint64_t h, uint64_t n, uint32_t pitch, uint32_t overhang,
                   const uint8_t *part, uint64_t part_len,
                   const uint8_t *support, uint64_t support_len,
                   const uint16_t *rings, uint64_t rings_len,
                   uint8_t *out, uint64_t out_len);

#ifdef __cplusplus
}
#endif

#endif
