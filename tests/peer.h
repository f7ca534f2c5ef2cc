/* The peer: a plain second implementation of every call of kitegimlet.h, written from the rules alone, for the tests to compare with.
 *
 * Each peer_X takes what kg_X takes and answers what kg_X should answer. The peer is slow and allocates; it is meant to be right at sight.
 */
#ifndef PEER_H
#define PEER_H

#include "kitegimlet.h"

kg_answer peer_reach(uint32_t pitch, uint32_t overhang);

kg_answer peer_plan(uint64_t w, uint64_t h, uint64_t n, uint32_t pitch, uint32_t overhang,
                    const uint8_t *part, uint64_t part_len,
                    uint8_t *support, uint64_t support_len,
                    uint16_t *rings, uint64_t rings_len);

kg_answer peer_clean(uint64_t w, uint64_t h, uint64_t n, uint32_t pitch, uint32_t overhang, uint64_t gap,
                     const uint8_t *part, uint64_t part_len,
                     uint8_t *support, uint64_t support_len,
                     uint16_t *rings, uint64_t rings_len,
                     uint8_t *cleaned, uint64_t cleaned_len);

kg_answer peer_posts(uint64_t w, uint64_t h, uint64_t n, uint32_t pitch, uint32_t overhang, uint32_t radius,
                     const uint8_t *part, uint64_t part_len,
                     uint8_t *posts, uint64_t posts_len);

kg_answer peer_check(uint64_t w, uint64_t h, uint64_t n, uint32_t pitch, uint32_t overhang,
                     const uint8_t *part, uint64_t part_len,
                     const uint8_t *support, uint64_t support_len,
                     const uint16_t *rings, uint64_t rings_len);

kg_answer peer_read(const uint8_t *file, uint64_t file_len, uint64_t *told, uint64_t told_len);

kg_stretch peer_part(const uint8_t *file, uint64_t file_len);
kg_stretch peer_support(const uint8_t *file, uint64_t file_len);

kg_answer peer_copy_rings(const uint8_t *file, uint64_t file_len, uint16_t *rings, uint64_t rings_len);

kg_answer peer_write(uint64_t w, uint64_t h, uint64_t n, uint32_t pitch, uint32_t overhang,
                     const uint8_t *part, uint64_t part_len,
                     const uint8_t *support, uint64_t support_len,
                     const uint16_t *rings, uint64_t rings_len,
                     uint8_t *out, uint64_t out_len);

/* What the report program prints for a file on its standard input. Answers the length of the text and puts as much of it as fits into
 * out; no zero follows. */
uint64_t peer_report(const uint8_t *file, uint64_t file_len, char *out, uint64_t cap);

#endif
