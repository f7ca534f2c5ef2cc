/* Other names for the calls of a peer with a fault, so that it stands beside the right one in the same program. */
#define peer_reach faulty_reach
#define peer_plan faulty_plan
#define peer_clean faulty_clean
#define peer_posts faulty_posts
#define peer_check faulty_check
#define peer_read faulty_read
#define peer_part faulty_part
#define peer_support faulty_support
#define peer_copy_rings faulty_copy_rings
#define peer_write faulty_write
#define peer_report faulty_report
