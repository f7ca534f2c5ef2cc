/* The driver: compares every call of the library with the peer on many inputs, from a seed, within a time, and asks what must hold between
 * calls.
 *
 * usage: driver [--seconds S] [--seed X] [--case K] [--cases N] [--record FILE] [--patience S]
 *
 * Prints how often each refusal number and each kind of accepted input was met; in a full run all of them must be. On a difference it
 * prints the seed, the case and the smallest input found that still shows it, and ends with status 1. --case K tries that case alone,
 * --cases N the first N in place of a time. --record FILE writes down each case that was compared. A call that takes more processor time
 * than --patience is taken for endless.
 * The last line is 'N passed, M failed', over the pieces, each call, and the numbers and kinds met.
 */
#define _DEFAULT_SOURCE
#include "met.h"
#include "record.h"

#include <stdio.h>
#include <stdlib.h>
#include <string.h>
#include <time.h>

enum { STANDARD_SECONDS = 60, FULL_SECONDS = 30, FULL_CASES = 60000, SHRINK_SECONDS = 10, PATIENCE = 20 };
enum { PRINTED_BYTES = 2048 };
#define STANDARD_SEED 20260701u

double now(void)
{
    struct timespec t;
    clock_gettime(CLOCK_MONOTONIC, &t);
    return (double)t.tv_sec + (double)t.tv_nsec / 1e9;
}

/* ---- Telling a difference ---- */

static void print_buffer(const struct trial *t, enum lent which)
{
    const struct buffer *b = &t->lent[which];
    printf("  %s, %llu elements%s:", lent_names[which], (unsigned long long)b->len, is_long(b, which) ? ", then zeros" : "");
    for (uint64_t k = 0; k < b->held && k < PRINTED_BYTES; k += widths[which]) {
        printf(widths[which] == 1 && k % 8 != 0 ? "" : " ");
        for (unsigned j = widths[which]; j > 0; j--) printf("%02x", b->bytes[k + j - 1]);
    }
    printf("%s\n", b->held > PRINTED_BYTES ? " ..." : "");
}

static void print_trial(const struct trial *t)
{
    static const char *const places[PLACES] = {"between guards", "right after closed memory", "right before closed memory"};
    printf("  %s", call_names[t->call]);
    if (!uses(t->call, JOB_FILE) && t->call != REACH)
        printf(" w %llu h %llu n %llu", (unsigned long long)t->w, (unsigned long long)t->h, (unsigned long long)t->n);
    if (!uses(t->call, JOB_FILE)) printf(" pitch %lu overhang %lu", (unsigned long)t->pitch, (unsigned long)t->overhang);
    if (t->call == CLEAN) printf(" gap %llu", (unsigned long long)t->gap);
    if (t->call == POSTS) printf(" radius %lu", (unsigned long)t->radius);
    printf("\n");
    for (int which = 0; which < LENTS; which++)
        if (uses(t->call, which)) print_buffer(t, which);
    printf("  buffers %s%s\n", places[t->place], t->null_for_empty ? ", empty ones null" : "");
}

/* Tells a difference with the smallest input found that shows it; a call that does not end is told as it is. */
static void tell_difference(struct trial *t, uint64_t seed, uint64_t number, enum verdict verdict, char *why, size_t cap)
{
    struct outcome peer;
    printf("difference in %s, seed %llu, case %llu: %s\n", call_names[t->call], (unsigned long long)seed, (unsigned long long)number, why);
    fflush(stdout);
    if (verdict == DIFFERENT) {
        shrink(t, SHRINK_SECONDS);
        compare(t, &peer, why, cap);
        outcome_free(&peer);
    }
    printf("smallest input found: %s\n", why);
    print_trial(t);
    fflush(stdout);
}

/* ---- The run ---- */

static FILE *recorded; /* where cases are written down, or null */

static int has_unlendable(const struct trial *t)
{
    for (int which = 0; which < LENTS; which++)
        if (uses(t->call, which) && is_long(&t->lent[which], which) && !lend_long()) return 1;
    return 0;
}

/* Tries one case; answers the call in which it differs, or CALLS. */
static enum call try_case(uint64_t seed, uint64_t number)
{
    struct trial t;
    struct outcome peer;
    char why[200];
    enum verdict verdict = SAME;
    enum call call;
    make_trial(&t, seed, number);
    call = t.call;
    if (!has_unlendable(&t)) {
        verdict = compare(&t, &peer, why, sizeof why);
        if (verdict == SAME) note(&t, &peer);
        if (verdict == SAME && recorded != NULL) record(recorded, number, &t, &peer);
        outcome_free(&peer);
    }
    if (verdict != SAME) tell_difference(&t, seed, number, verdict, why, sizeof why);
    trial_free(&t);
    return verdict == SAME ? CALLS : call;
}

static enum call try_largest(uint64_t seed)
{
    enum call at = CALLS;
    for (uint64_t number = 0; at == CALLS && number < LARGEST_CASES; number++) at = try_case(seed, number);
    return at;
}

/* In a full run the largest cases come after half of the time. */
static enum call try_cases(uint64_t seed, double seconds)
{
    double began = now();
    int largest_left = seconds >= FULL_SECONDS;
    enum call at = CALLS;
    for (uint64_t number = LARGEST_CASES; at == CALLS && now() < began + seconds; number++) {
        at = try_case(seed, number);
        if (at == CALLS && largest_left && now() > began + seconds / 2) {
            at = try_largest(seed);
            largest_left = 0;
        }
    }
    return at;
}

/* The first cases, the largest last. */
static enum call try_first(uint64_t seed, uint64_t cases)
{
    enum call at = CALLS;
    for (uint64_t number = LARGEST_CASES; at == CALLS && number < cases; number++) at = try_case(seed, number);
    return at == CALLS && cases >= FULL_CASES ? try_largest(seed) : at;
}

static void print_end(uint64_t seed)
{
    unsigned long all = 0;
    for (int call = 0; call < CALLS; call++) all += compared[call];
    printf("driver: %lu comparisons, ", all);
    for (int call = 0; call < CALLS; call++) printf("%lu of %s%s", compared[call], call_names[call], call + 1 < CALLS ? ", " : "; ");
    printf("seed %llu\n", (unsigned long long)seed);
}

/* So many cases, or as many as there is time for where that is 0. */
static int run(uint64_t seed, double seconds, uint64_t cases)
{
    int passed = 0, failed = 0, missing, full = cases > 0 ? cases >= FULL_CASES : seconds >= FULL_SECONDS;
    enum call differing;
    if (try_pieces() == 0) passed++;
    else failed++;
    differing = cases > 0 ? try_first(seed, cases) : try_cases(seed, seconds);
    missing = print_met(stdout);
    if (differing != CALLS) failed++;
    for (int call = 0; call < CALLS; call++)
        if (call != (int)differing && compared[call] > 0) passed++;
    if (differing == CALLS && full) {
        if (missing > 0) printf("%d numbers or kinds were not met\n", missing);
        if (missing > 0) failed++;
        else passed++;
    }
    print_end(seed);
    printf("%d passed, %d failed\n", passed, failed);
    return failed == 0 ? 0 : 1;
}

static FILE *open_record(const char *name)
{
    FILE *file = fopen(name, "wb");
    if (file == NULL) {
        perror(name);
        exit(2);
    }
    return file;
}

static int usage(void)
{
    fputs("usage: driver [--seconds S] [--seed X] [--case K] [--cases N] [--record FILE] [--patience S]\n", stderr);
    return 2;
}

int main(int argc, char **argv)
{
    uint64_t seed = STANDARD_SEED, number = 0, cases = 0;
    double seconds = STANDARD_SECONDS;
    unsigned patience = PATIENCE;
    int one = 0;
    for (int k = 1; k < argc; k += 2) {
        if (k + 1 == argc) return usage();
        if (strcmp(argv[k], "--seconds") == 0) seconds = strtod(argv[k + 1], NULL);
        else if (strcmp(argv[k], "--seed") == 0) seed = strtoull(argv[k + 1], NULL, 0);
        else if (strcmp(argv[k], "--case") == 0) one = 1, number = strtoull(argv[k + 1], NULL, 0);
        else if (strcmp(argv[k], "--cases") == 0) cases = strtoull(argv[k + 1], NULL, 0);
        else if (strcmp(argv[k], "--record") == 0) recorded = open_record(argv[k + 1]);
        else if (strcmp(argv[k], "--patience") == 0) patience = (unsigned)strtoul(argv[k + 1], NULL, 0);
        else return usage();
    }
    lend_open(patience);
    printf("driver: seed %llu\n", (unsigned long long)seed);
    if (!one) return run(seed, seconds, cases);
    if (try_case(seed, number) != CALLS) {
        printf("0 passed, 1 failed\n");
        return 1;
    }
    printf("1 passed, 0 failed\n");
    return 0;
}
