/* Lends the buffers of a trial to the library and to the peer.
 *
 * What the library is lent stands in memory of its own for each kind of buffer, with guard bytes around it and closed pages at both ends:
 * a write past a buffer spoils a guard or, like a read, hits a closed page. Calls that break or do not end are broken off and told.
 * The peer is lent plain allocations of exactly the right length, which sanitizers watch.
 */
#define _DEFAULT_SOURCE
#include "trial.h"

#include "peer.h"

#include <setjmp.h>
#include <signal.h>
#include <stdio.h>
#include <stdlib.h>
#include <string.h>
#include <sys/mman.h>
#include <sys/time.h>

enum { GUARD = 64, CLOSED = 65536, TICKS_TO_END = 4 };
#define OPEN ((uint64_t)80 << 20)          /* room for the longest job, 75,366,426 bytes */
#define LONG_ROOM ((uint64_t)(33) << 30)   /* room for a long buffer of 64-bit numbers */

static uint8_t *open_memory[LENTS];
static uint8_t *long_of_library, *long_of_peer;

/* ---- Both sides behind one face ---- */

struct face {
    kg_answer (*reach)(uint32_t, uint32_t);
    kg_answer (*plan)(uint64_t, uint64_t, uint64_t, uint32_t, uint32_t, const uint8_t *, uint64_t, uint8_t *, uint64_t,
                      uint16_t *, uint64_t);
    kg_answer (*clean)(uint64_t, uint64_t, uint64_t, uint32_t, uint32_t, uint64_t, const uint8_t *, uint64_t, uint8_t *, uint64_t,
                       uint16_t *, uint64_t, uint8_t *, uint64_t);
    kg_answer (*posts)(uint64_t, uint64_t, uint64_t, uint32_t, uint32_t, uint32_t, const uint8_t *, uint64_t, uint8_t *, uint64_t);
    kg_answer (*check)(uint64_t, uint64_t, uint64_t, uint32_t, uint32_t, const uint8_t *, uint64_t, const uint8_t *, uint64_t,
                       const uint16_t *, uint64_t);
    kg_answer (*read)(const uint8_t *, uint64_t, uint64_t *, uint64_t);
    kg_stretch (*part)(const uint8_t *, uint64_t);
    kg_stretch (*support)(const uint8_t *, uint64_t);
    kg_answer (*copy_rings)(const uint8_t *, uint64_t, uint16_t *, uint64_t);
    kg_answer (*write)(uint64_t, uint64_t, uint64_t, uint32_t, uint32_t, const uint8_t *, uint64_t, const uint8_t *, uint64_t,
                       const uint16_t *, uint64_t, uint8_t *, uint64_t);
};

static const struct face library_face = {kg_reach, kg_plan, kg_clean,   kg_posts,      kg_check,
                                         kg_read,  kg_part, kg_support, kg_copy_rings, kg_write};
static const struct face peer_face = {peer_reach, peer_plan, peer_clean,   peer_posts,      peer_check,
                                      peer_read,  peer_part, peer_support, peer_copy_rings, peer_write};

static uint64_t call(const struct face *f, const struct trial *t, uint8_t *const at[LENTS])
{
    uint8_t *part = at[PART_STACK], *support = at[SUPPORT_STACK], *cleaned = at[CLEANED_STACK], *posts = at[POSTS_STACK];
    uint8_t *file = at[JOB_FILE], *out = at[OUT];
    uint16_t *rings = (uint16_t *)(void *)at[RING_PLANES];
    uint64_t *told = (uint64_t *)(void *)at[TOLD];
    uint64_t part_len = t->lent[PART_STACK].len, support_len = t->lent[SUPPORT_STACK].len, rings_len = t->lent[RING_PLANES].len;
    uint64_t cleaned_len = t->lent[CLEANED_STACK].len, posts_len = t->lent[POSTS_STACK].len;
    uint64_t file_len = t->lent[JOB_FILE].len, told_len = t->lent[TOLD].len, out_len = t->lent[OUT].len;
    switch (t->call) {
    case REACH: return f->reach(t->pitch, t->overhang);
    case PLAN: return f->plan(t->w, t->h, t->n, t->pitch, t->overhang, part, part_len, support, support_len, rings, rings_len);
    case CLEAN:
        return f->clean(t->w, t->h, t->n, t->pitch, t->overhang, t->gap, part, part_len, support, support_len, rings, rings_len, cleaned,
                        cleaned_len);
    case POSTS: return f->posts(t->w, t->h, t->n, t->pitch, t->overhang, t->radius, part, part_len, posts, posts_len);
    case CHECK: return f->check(t->w, t->h, t->n, t->pitch, t->overhang, part, part_len, support, support_len, rings, rings_len);
    case READ: return f->read(file, file_len, told, told_len);
    case PART: return f->part(file, file_len);
    case SUPPORT: return f->support(file, file_len);
    case COPY_RINGS: return f->copy_rings(file, file_len, rings, rings_len);
    default:
        return f->write(t->w, t->h, t->n, t->pitch, t->overhang, part, part_len, support, support_len, rings, rings_len, out, out_len);
    }
}

/* ---- Calls that break or do not end ---- */

static sigjmp_buf way_out;
static volatile sig_atomic_t in_call, ticks;

static void broken(int signal)
{
    if (in_call) siglongjmp(way_out, signal);
    fprintf(stderr, "driver: signal %d outside of a call of the library\n", signal);
    _Exit(2);
}

static void tick(int signal)
{
    if (!in_call) return;
    ticks = ticks + 1;
    if (ticks > TICKS_TO_END) siglongjmp(way_out, signal);
}

static void catch_signal(int signal, void (*handler)(int))
{
    struct sigaction action;
    memset(&action, 0, sizeof action);
    action.sa_handler = handler;
    action.sa_flags = SA_NODEFER | SA_RESTART;
    sigemptyset(&action.sa_mask);
    sigaction(signal, &action, NULL);
}

/* A call is broken off after `patience` seconds of processor time, or a quarter more. */
static void catch_signals(unsigned patience)
{
    struct itimerval every;
    catch_signal(SIGSEGV, broken);
    catch_signal(SIGBUS, broken);
    catch_signal(SIGILL, broken);
    catch_signal(SIGFPE, broken);
    catch_signal(SIGTRAP, broken);
    catch_signal(ENDLESS_SIGNAL, tick);
    every.it_interval.tv_sec = every.it_value.tv_sec = patience / TICKS_TO_END;
    every.it_interval.tv_usec = every.it_value.tv_usec = patience % TICKS_TO_END * (1000000 / TICKS_TO_END);
    setitimer(ITIMER_PROF, &every, NULL);
}

static void call_caught(const struct trial *t, uint8_t *const at[LENTS], struct outcome *o)
{
    int signal = sigsetjmp(way_out, 0);
    if (signal == 0) {
        ticks = 0;
        in_call = 1;
        o->answer = call(&library_face, t, at);
    }
    in_call = 0;
    o->signal = signal;
}

/* ---- Memory to lend ---- */

static uint8_t *map(uint64_t bytes, int protection)
{
    void *got = mmap(NULL, bytes, protection, MAP_PRIVATE | MAP_ANONYMOUS | MAP_NORESERVE, -1, 0);
    return got == MAP_FAILED ? NULL : got;
}

void lend_open(unsigned patience)
{
    for (int which = 0; which < LENTS; which++) {
        uint8_t *all = map(OPEN + 2 * CLOSED, PROT_NONE);
        if (all == NULL || mprotect(all + CLOSED, OPEN, PROT_READ | PROT_WRITE) != 0) {
            fputs("driver: no memory to lend\n", stderr);
            exit(2);
        }
        open_memory[which] = all + CLOSED;
    }
    long_of_library = map(LONG_ROOM, PROT_READ | PROT_WRITE);
    long_of_peer = map(LONG_ROOM, PROT_READ | PROT_WRITE);
    catch_signals(patience);
}

int lend_long(void) { return long_of_library != NULL && long_of_peer != NULL; }

static uint8_t guard_byte(uint64_t k) { return (uint8_t)(0xA5 ^ k * 29); }

static void set_guard(uint8_t *from)
{
    for (uint64_t k = 0; k < GUARD; k++) from[k] = guard_byte(k);
}

static int guard_spoilt(const uint8_t *from)
{
    for (uint64_t k = 0; k < GUARD; k++)
        if (from[k] != guard_byte(k)) return 1;
    return 0;
}

static uint8_t *place_of(const struct trial *t, enum lent which)
{
    uint64_t bytes = t->lent[which].held;
    if (is_long(&t->lent[which], which)) return long_of_library;
    if (t->place == FIRST) return open_memory[which];
    if (t->place == LAST) return open_memory[which] + OPEN - bytes;
    return open_memory[which] + GUARD + (widths[which] == 1 ? t->skew : 0);
}

static int guarded_before(const struct trial *t, enum lent which) { return t->place != FIRST && !is_long(&t->lent[which], which); }
static int guarded_after(const struct trial *t, enum lent which) { return t->place != LAST && !is_long(&t->lent[which], which); }

static uint8_t *lend(const struct trial *t, enum lent which)
{
    const struct buffer *b = &t->lent[which];
    uint8_t *at = place_of(t, which);
    if (guarded_before(t, which)) set_guard(at - GUARD);
    if (guarded_after(t, which)) set_guard(at + b->held);
    if (b->held > 0) memcpy(at, b->bytes, b->held);
    return at;
}

static const char *trespass_by(const struct trial *t, enum lent which, uint8_t *at)
{
    uint64_t held = t->lent[which].held;
    if (guarded_before(t, which) && guard_spoilt(at - GUARD)) return "wrote before a buffer";
    if (guarded_after(t, which) && guard_spoilt(at + held)) return "wrote past a buffer";
    if (!is_long(&t->lent[which], which)) return NULL;
    for (uint64_t k = 0; k < GUARD; k++)
        if (at[held + k] != 0) return "wrote too much of a long buffer";
    return NULL;
}

/* Gives the pages of a long buffer back, so that it is all zero again. */
static void clear_long(uint8_t *at, uint64_t held)
{
    memset(at, 0, held + GUARD);
    if (held > CLOSED) madvise(at, LONG_ROOM, MADV_DONTNEED);
}

void call_library(const struct trial *t, struct outcome *o)
{
    uint8_t *lent_at[LENTS];
    o->answer = 0;
    o->trespass = NULL;
    for (int which = 0; which < LENTS; which++) {
        int null = t->null_for_empty && t->lent[which].len == 0;
        o->after[which] = uses(t->call, which) ? lend(t, which) : NULL;
        lent_at[which] = null ? NULL : o->after[which];
    }
    call_caught(t, lent_at, o);
    for (int which = 0; which < LENTS; which++)
        if (uses(t->call, which) && o->trespass == NULL) o->trespass = trespass_by(t, which, o->after[which]);
}

void call_peer(const struct trial *t, struct outcome *o)
{
    uint8_t *lent_at[LENTS];
    o->signal = 0;
    o->trespass = NULL;
    for (int which = 0; which < LENTS; which++) {
        const struct buffer *b = &t->lent[which];
        o->after[which] = NULL;
        lent_at[which] = NULL;
        if (!uses(t->call, which) || b->held == 0) continue;
        o->after[which] = malloc(b->held);
        if (o->after[which] == NULL) exit(2);
        memcpy(o->after[which], b->bytes, b->held);
        lent_at[which] = o->after[which];
    }
    for (int which = 0; which < LENTS; which++)
        if (uses(t->call, which) && is_long(&t->lent[which], which)) {
            lent_at[which] = long_of_peer;
            if (t->lent[which].held > 0) memcpy(long_of_peer, t->lent[which].bytes, t->lent[which].held);
        }
    o->answer = call(&peer_face, t, lent_at);
    for (int which = 0; which < LENTS; which++)
        if (uses(t->call, which) && is_long(&t->lent[which], which) && t->lent[which].held > 0)
            memcpy(o->after[which], long_of_peer, t->lent[which].held);
}

void outcome_free(struct outcome *of_peer)
{
    for (int which = 0; which < LENTS; which++) {
        free(of_peer->after[which]);
        of_peer->after[which] = NULL;
    }
}

/* ---- Comparing ---- */

static int first_difference(const uint8_t *a, const uint8_t *b, uint64_t bytes, uint64_t *at)
{
    if (bytes == 0 || memcmp(a, b, bytes) == 0) return 0;
    for (*at = 0; a[*at] == b[*at];) ++*at;
    return 1;
}

static int refusing(const struct trial *t, uint64_t answer) { return t->call != PART && t->call != SUPPORT && kg_number(answer) != 0; }

static void tell_answer(const struct trial *t, uint64_t answer, char *text, size_t cap)
{
    if (t->call == PART || t->call == SUPPORT)
        snprintf(text, cap, "%llu bytes at %llu", (unsigned long long)kg_length(answer), (unsigned long long)kg_offset(answer));
    else if (kg_place_parts(answer) == 2 && kg_column(answer) == 0)
        snprintf(text, cap, "%u at %u, %u", kg_number(answer), kg_layer(answer), kg_row(answer));
    else if (kg_place_parts(answer) != 0)
        snprintf(text, cap, "%u at %u, %u, %u", kg_number(answer), kg_layer(answer), kg_row(answer), kg_column(answer));
    else
        snprintf(text, cap, "%u with value %llu", kg_number(answer), (unsigned long long)kg_value(answer));
}

static int compare_buffer(const struct trial *t, enum lent which, const struct outcome *library, const struct outcome *peer, char *why,
                          size_t cap)
{
    uint64_t at, held = t->lent[which].held;
    const char *name = lent_names[which];
    const char *how = !writes(t->call, which) ? "an input" : "changed by a refused call:";
    int must_stay = !writes(t->call, which) || refusing(t, library->answer);
    if (must_stay && first_difference(library->after[which], t->lent[which].bytes, held, &at)) {
        snprintf(why, cap, "%s %s at byte %llu", how, name, (unsigned long long)at);
        return 1;
    }
    if (first_difference(library->after[which], peer->after[which], held, &at)) {
        snprintf(why, cap, "%s at byte %llu: %02x, the peer's %02x", name, (unsigned long long)at, library->after[which][at],
                 peer->after[which][at]);
        return 1;
    }
    return 0;
}

static enum verdict compare_outcomes(const struct trial *t, const struct outcome *library, const struct outcome *peer, char *why,
                                     size_t cap)
{
    if (library->signal == ENDLESS_SIGNAL) {
        snprintf(why, cap, "the call did not end");
        return ENDLESS;
    }
    if (library->signal != 0) {
        snprintf(why, cap, "the call broke (signal %d): it touched memory that it was not lent, or worse", library->signal);
        return DIFFERENT;
    }
    if (library->trespass != NULL) {
        snprintf(why, cap, "the call %s", library->trespass);
        return DIFFERENT;
    }
    if (library->answer != peer->answer) {
        char answered[80], expected[80];
        tell_answer(t, library->answer, answered, sizeof answered);
        tell_answer(t, peer->answer, expected, sizeof expected);
        snprintf(why, cap, "answer %s, the peer's %s", answered, expected);
        return DIFFERENT;
    }
    for (int which = 0; which < LENTS; which++)
        if (uses(t->call, which) && compare_buffer(t, which, library, peer, why, cap)) return DIFFERENT;
    return SAME;
}

enum verdict compare(const struct trial *t, struct outcome *peer, char *why, size_t cap)
{
    struct outcome library;
    enum verdict verdict;
    const char *broken;
    call_peer(t, peer);
    call_library(t, &library);
    verdict = compare_outcomes(t, &library, peer, why, cap);
    if (verdict == SAME && (broken = broken_fact(t, peer)) != NULL) {
        snprintf(why, cap, "%s", broken);
        verdict = DIFFERENT;
    }
    for (int which = 0; which < LENTS; which++)
        if (uses(t->call, which) && is_long(&t->lent[which], which)) {
            clear_long(long_of_library, t->lent[which].held);
            clear_long(long_of_peer, t->lent[which].held);
        }
    return verdict;
}

int differs(const struct trial *t)
{
    struct outcome peer;
    char why[200];
    enum verdict verdict = compare(t, &peer, why, sizeof why);
    outcome_free(&peer);
    return verdict != SAME;
}
