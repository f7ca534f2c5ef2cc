/* Planning and judging in plain C, written for speed, for the benchmark to hold the library against: the peer, which is the yardstick,
 * and one that is tuned further, which also cleans and makes posts.
 *
 * They take what kg_plan, kg_check, kg_clean and kg_posts of kitegimlet.h take and answer the same. They keep their scratch between calls, so one
 * call at a time.
 */
#ifndef PEERS_H
#define PEERS_H

#include "kitegimlet.h"

typedef kg_answer plan_call(uint64_t w, uint64_t h, uint64_t n, uint32_t pitch, uint32_t overhang,
                            const uint8_t *part, uint64_t part_len,
                            uint8_t *support, uint64_t support_len,
                            uint16_t *rings, uint64_t rings_len);

typedef kg_answer check_call(uint64_t w, uint64_t h, uint64_t n, uint32_t pitch, uint32_t overhang,
                             const uint8_t *part, uint64_t part_len,
                             const uint8_t *support, uint64_t support_len,
                             const uint16_t *rings, uint64_t rings_len);

typedef kg_answer clean_call(uint64_t w, uint64_t h, uint64_t n, uint32_t pitch, uint32_t overhang, uint64_t gap,
                             const uint8_t *part, uint64_t part_len,
                             uint8_t *support, uint64_t support_len,
                             uint16_t *rings, uint64_t rings_len,
                             uint8_t *cleaned, uint64_t cleaned_len);

typedef kg_answer posts_call(uint64_t w, uint64_t h, uint64_t n, uint32_t pitch, uint32_t overhang, uint32_t radius,
                             const uint8_t *part, uint64_t part_len,
                             uint8_t *posts, uint64_t posts_len);

plan_call peer_plan, tuned_plan;
check_call peer_check, tuned_check;
clean_call tuned_clean;
posts_call tuned_posts;

#endif
