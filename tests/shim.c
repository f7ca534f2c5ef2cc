/* The shim: the library's calls answered by the peer, so that the driver can be tried without the library. */
#include "peer.h"

kg_answer kg_reach(uint32_t pitch, uint32_t overhang) { return peer_reach(pitch, overhang); }

kg_answer kg_plan(uint64_t w, uint64_t h, uint64_t n, uint32_t pitch, uint32_t overhang,
                  const uint8_t *part, uint64_t part_len,
                  uint8_t *support, uint64_t support_len,
                  uint16_t *rings, uint64_t rings_len)
{
    return peer_plan(w, h, n, pitch, overhang, part, part_len, support, support_len, rings, rings_len);
}

kg_answer kg_clean(uint64_t w, uint64_t h, uint64_t n, uint32_t pitch, uint32_t overhang, uint64_t gap,
                   const uint8_t *part, uint64_t part_len,
                   uint8_t *support, uint64_t support_len,
                   uint16_t *rings, uint64_t rings_len,
                   uint8_t *cleaned, uint64_t cleaned_len)
{
    return peer_clean(w, h, n, pitch, overhang, gap, part, part_len, support, support_len, rings, rings_len, cleaned, cleaned_len);
}

kg_answer kg_posts(uint64_t w, uint64_t h, uint64_t n, uint32_t pitch, uint32_t overhang, uint32_t radius,
                   const uint8_t *part, uint64_t part_len,
                   uint8_t *posts, uint64_t posts_len)
{
    return peer_posts(w, h, n, pitch, overhang, radius, part, part_len, posts, posts_len);
}

kg_answer kg_check(uint64_t w, uint64_t h, uint64_t n, uint32_t pitch, uint32_t overhang,
                   const uint8_t *part, uint64_t part_len,
                   const uint8_t *support, uint64_t support_len,
                   const uint16_t *rings, uint64_t rings_len)
{
    return peer_check(w, h, n, pitch, overhang, part, part_len, support, support_len, rings, rings_len);
}

kg_answer kg_read(const uint8_t *file, uint64_t file_len, uint64_t *told, uint64_t told_len)
{
    return peer_read(file, file_len, told, told_len);
}

kg_stretch kg_part(const uint8_t *file, uint64_t file_len) { return peer_part(file, file_len); }
kg_stretch kg_support(const uint8_t *file, uint64_t file_len) { return peer_support(file, file_len); }

kg_answer kg_copy_rings(const uint8_t *file, uint64_t file_len, uint16_t *rings, uint64_t rings_len)
{
    return peer_copy_rings(file, file_len, rings, rings_len);
}

kg_answer kg_write(uint64_t w, uint64_t h, uint64_t n, uint32_t pitch, uint32_t overhang,
                   const uint8_t *part, uint64_t part_len,
                   const uint8_t *support, uint64_t support_len,
                   const uint16_t *rings, uint64_t rings_len,
                   uint8_t *out, uint64_t out_len)
{
    return peer_write(w, h, n, pitch, overhang, part, part_len, support, support_len, rings, rings_len, out, out_len);
}
