/* The benchmark's driver: runs one call on one input, a number of times.
 *
 * usage: bench WHAT INPUT W H N T TIMES [GAP.. | RADIUS..]
 *        bench clock INPUT W H N T ROUNDS [GAP]
 *        bench clock-posts INPUT W H N T ROUNDS RADIUS
 *
 * WHAT is plan, check, clean or posts (the library), peer-plan or peer-check (the peer), tuned-plan, tuned-check, tuned-clean or tuned-posts
 * (the peer that is tuned further), floor (what no planner can do without: zeroing the ring planes and copying the part), compare (all three
 * must agree on every byte, and where a byte is spoiled on number and place; at GAPs those that clean), compare-posts (those that make posts
 * must agree on every byte at each RADIUS), or count-posts (prints how many posts have none above them). A check
 * judges what was planned before, by the tuned peer, which is not part of the TIMES. INPUT is empty, solid, sphere, lattice, noise, spiral,
 * meander, wide or maze; T is the overhang in pixels, as 10 or 32.99; GAP is that of cleaning in whole pixels, RADIUS that of posts in
 * micrometres, a pixel being 100 wide; both are 0 where they are not given. With TIMES 0 only the input is made, so what a call costs by any
 * measure is the difference.
 *
 * clock lets floor, planners and checkers take turns, ROUNDS times, or with a GAP those that plan and clean, clock-posts those that plan and
 * make posts. They print a line for each: WHAT, then the milliseconds of each round by the clock that counts the time that this thread had a
 * processor. A round before these is not counted.
 */
#define _POSIX_C_SOURCE 199309L
#include "inputs.h"
#include "peers.h"

#include <stdio.h>
#include <stdlib.h>
#include <string.h>
#include <time.h>

enum { PITCH = 100 };

struct job {
    struct size s;
    uint32_t overhang, radius;
    size_t gap;
    uint8_t *part, *support, *cleaned, *posts;
    uint16_t *rings;
};

static void die(const char *why)
{
    fprintf(stderr, "bench: %s\n", why);
    exit(2);
}

/* Pages that nobody wrote are all one page of zeros, which some machines read slowly: so each is written once. */
static void *room(size_t count, size_t width)
{
    volatile unsigned char *p = calloc(count + 1, width);
    if (p == NULL) die("out of memory");
    for (size_t k = 0; k < (count + 1) * width; k += 4096) p[k] = 0;
    return (void *)p;
}

static void accept(kg_answer answer)
{
    if (answer != 0) die("a call refused");
}

/* ---- The calls ---- */

static void plan_by(plan_call *call, const struct job *j)
{
    accept(call(j->s.w, j->s.h, j->s.n, PITCH, j->overhang, j->part, stack_bytes(j->s), j->support, stack_bytes(j->s), j->rings,
                ring_count(j->s)));
}

static void check_by(check_call *call, const struct job *j)
{
    accept(call(j->s.w, j->s.h, j->s.n, PITCH, j->overhang, j->part, stack_bytes(j->s), j->support, stack_bytes(j->s), j->rings,
                ring_count(j->s)));
}

static void clean_by(clean_call *call, const struct job *j)
{
    accept(call(j->s.w, j->s.h, j->s.n, PITCH, j->overhang, j->gap, j->part, stack_bytes(j->s), j->support, stack_bytes(j->s), j->rings,
                ring_count(j->s), j->cleaned, stack_bytes(j->s)));
}

static void posts_by(posts_call *call, const struct job *j)
{
    accept(call(j->s.w, j->s.h, j->s.n, PITCH, j->overhang, j->radius, j->part, stack_bytes(j->s), j->posts, stack_bytes(j->s)));
}

static void least(const struct job *j)
{
    memset(j->rings, 0, ring_count(j->s) * sizeof *j->rings);
    memcpy(j->support, j->part, stack_bytes(j->s));
}

/* The library and its two peers. */
static const struct {
    const char *plan_name, *check_name;
    plan_call *plan;
    check_call *check;
} planners[] = {
    {"plan", "check", kg_plan, kg_check},
    {"peer-plan", "peer-check", peer_plan, peer_check},
    {"tuned-plan", "tuned-check", tuned_plan, tuned_check},
};

/* Those that clean. */
static const struct {
    const char *name;
    clean_call *clean;
} cleaners[] = {{"clean", kg_clean}, {"tuned-clean", tuned_clean}};

/* Those that make posts. */
static const struct {
    const char *name;
    posts_call *posts;
} posters[] = {{"posts", kg_posts}, {"tuned-posts", tuned_posts}};

enum {
    PLANNERS = sizeof planners / sizeof *planners,
    CLEANERS = sizeof cleaners / sizeof *cleaners,
    POSTERS = sizeof posters / sizeof *posters
};

/* ---- Comparing ---- */

/* Fills what a call is to write, so that its memory is there and holds other bytes. */
static void spoil(const struct job *j)
{
    memset(j->posts, 0xA5, stack_bytes(j->s));
    memset(j->cleaned, 0xA5, stack_bytes(j->s));
    memset(j->support, 0xA5, stack_bytes(j->s));
    memset(j->rings, 0xA5, ring_count(j->s) * sizeof *j->rings);
}

static void lend(struct job *j)
{
    j->support = room(stack_bytes(j->s), 1);
    j->rings = room(ring_count(j->s), sizeof *j->rings);
    j->cleaned = room(stack_bytes(j->s), 1);
    j->posts = room(stack_bytes(j->s), 1);
    spoil(j);
}

static void same_plans(const struct job *a, const struct job *b)
{
    if (memcmp(a->support, b->support, stack_bytes(a->s)) != 0) die("support differs");
    if (memcmp(a->rings, b->rings, ring_count(a->s) * sizeof *a->rings) != 0) die("rings differ");
}

static void compare_with(size_t k, const struct job *j, const struct job *other)
{
    spoil(other);
    plan_by(planners[k].plan, other);
    same_plans(j, other);
    check_by(planners[k].check, j);
}

static kg_answer judged_by(check_call *call, const struct job *j)
{
    return call(j->s.w, j->s.h, j->s.n, PITCH, j->overhang, j->part, stack_bytes(j->s), j->support, stack_bytes(j->s), j->rings,
                ring_count(j->s));
}

/* One byte is another, something is refused, and all must tell the same number and place. */
static void same_refusals(const struct job *j, uint8_t *byte, unsigned value)
{
    uint8_t was = *byte;
    *byte = (uint8_t)value;
    for (size_t k = 1; k < PLANNERS; k++)
        if (judged_by(planners[k].check, j) != judged_by(kg_check, j)) die("refusals differ");
    *byte = was;
}

/* Support taken away, painted in the top layer, and padding set in the last row of each stack. */
static void compare_refusals(const struct job *j)
{
    size_t last = stack_bytes(j->s) - 1, some = 0;
    while (some < last && j->support[some] == 0) some++;
    same_refusals(j, &j->support[some], 0);
    if (j->s.w % 8 == 0) same_refusals(j, &j->support[last], ~(unsigned)j->part[last]);
    else same_refusals(j, &j->support[last], 1);
    if (j->s.w % 8 != 0) same_refusals(j, &j->part[last], 1);
}

static void compare(const struct job *j)
{
    struct job other = *j;
    lend(&other);
    plan_by(kg_plan, j);
    check_by(kg_check, j);
    for (size_t k = 1; k < PLANNERS; k++) compare_with(k, j, &other);
    compare_refusals(j);
}

/* Cleaning must plan as planning does, and those that clean must agree. */
static void compare_cleaners(const struct job *j, const struct job *other)
{
    for (size_t k = 0; k < CLEANERS; k++) {
        spoil(other);
        clean_by(cleaners[k].clean, other);
        same_plans(j, other);
        if (k == 0) memcpy(j->cleaned, other->cleaned, stack_bytes(j->s));
        if (memcmp(j->cleaned, other->cleaned, stack_bytes(j->s)) != 0) die("cleaned support differs");
    }
}

static void compare_cleaned(const struct job *j, const size_t *gaps, size_t count)
{
    struct job other = *j;
    lend(&other);
    plan_by(kg_plan, j);
    for (size_t k = 0; k < count; k++) {
        other.gap = gaps[k];
        compare_cleaners(j, &other);
    }
}

/* Those that make posts must agree. */
static void compare_posts(const struct job *j, const size_t *radii, size_t count)
{
    struct job other = *j;
    lend(&other);
    for (size_t k = 0; k < count; k++) {
        other.radius = (uint32_t)radii[k];
        for (size_t p = 0; p < POSTERS; p++) {
            spoil(&other);
            posts_by(posters[p].posts, &other);
            if (p == 0) memcpy(j->posts, other.posts, stack_bytes(j->s));
            if (memcmp(j->posts, other.posts, stack_bytes(j->s)) != 0) die("posts differ");
        }
    }
}

/* How many posts are new: with none right above them. */
static unsigned long new_posts(const struct job *j)
{
    size_t plane = stack_bytes(j->s) / j->s.n;
    unsigned long count = 0;
    posts_by(tuned_posts, j);
    for (size_t k = 0; k + plane < stack_bytes(j->s); k++) count += (unsigned)__builtin_popcount(j->posts[k] & ~j->posts[k + plane]);
    return count;
}

/* ---- The command line ---- */

static size_t number(const char *word, size_t low, size_t high)
{
    char *end;
    unsigned long value = strtoul(word, &end, 10);
    if (*word == 0 || *end != 0 || value < low || value > high) die("a number is missing or out of range");
    return value;
}

/* Pixels with up to two decimals, in micrometres. */
static uint32_t overhang(const char *word)
{
    char whole[16];
    const char *point = strchr(word, '.');
    size_t length = point == NULL ? strlen(word) : (size_t)(point - word), part = 0;
    if (length >= sizeof whole) die("a number is out of range");
    memcpy(whole, word, length);
    whole[length] = 0;
    if (point != NULL) part = number(point + 1, 0, 99) * (strlen(point + 1) == 1 ? 10 : 1);
    return (uint32_t)(PITCH * number(whole, 0, 32) + part * PITCH / 100);
}

static struct job make_job(char **words)
{
    struct job j;
    const struct input *input = find_input(words[0]);
    if (input == NULL) die("no such input");
    j.s.w = number(words[1], 1, 256);
    j.s.h = number(words[2], 1, 256);
    j.s.n = number(words[3], 1, 512);
    j.overhang = overhang(words[4]);
    j.gap = 0;
    j.radius = 0;
    j.part = room(stack_bytes(j.s), 1);
    input->draw(j.s, j.part);
    lend(&j);
    return j;
}

static double milliseconds(void)
{
    struct timespec t;
    clock_gettime(CLOCK_THREAD_CPUTIME_ID, &t);
    return (double)t.tv_sec * 1e3 + (double)t.tv_nsec / 1e6;
}

/* Runs what is named; false where nothing has that name. */
static int run(const char *what, const struct job *j)
{
    if (strcmp(what, "floor") == 0) {
        least(j);
        return 1;
    }
    for (size_t k = 0; k < PLANNERS; k++) {
        if (strcmp(what, planners[k].plan_name) == 0) {
            plan_by(planners[k].plan, j);
            return 1;
        }
        if (strcmp(what, planners[k].check_name) == 0) {
            check_by(planners[k].check, j);
            return 1;
        }
    }
    for (size_t k = 0; k < CLEANERS; k++)
        if (strcmp(what, cleaners[k].name) == 0) {
            clean_by(cleaners[k].clean, j);
            return 1;
        }
    for (size_t k = 0; k < POSTERS; k++)
        if (strcmp(what, posters[k].name) == 0) {
            posts_by(posters[k].posts, j);
            return 1;
        }
    return 0;
}

/* ---- The clock ---- */

/* Whose turns there are without a gap, with one, and with a radius. */
static const char *const turns[] = {"floor", "plan", "peer-plan", "tuned-plan", "check", "peer-check", "tuned-check"};
static const char *const cleaning_turns[] = {"plan", "tuned-plan", "clean", "tuned-clean"};
static const char *const posts_turns[] = {"plan", "tuned-plan", "posts", "tuned-posts"};

enum {
    TURNS = sizeof turns / sizeof *turns,
    CLEANING_TURNS = sizeof cleaning_turns / sizeof *cleaning_turns,
    POSTS_TURNS = sizeof posts_turns / sizeof *posts_turns,
    MOST_ROUNDS = 1000
};

static int is_check(const char *what) { return strstr(what, "check") != NULL; }

/* The time of one call. Whose turn it is finds buffers and caches as the others do: just filled, or just planned for a check. */
static double took(const char *what, const struct job *j)
{
    double began;
    if (is_check(what)) plan_by(tuned_plan, j);
    else spoil(j);
    began = milliseconds();
    run(what, j);
    return milliseconds() - began;
}

static void clock_rounds(const struct job *j, const char *const *whats, size_t count, size_t rounds)
{
    static double times[TURNS][MOST_ROUNDS + 1];
    if (rounds > MOST_ROUNDS) die("too many rounds");
    for (size_t round = 0; round <= rounds; round++)
        for (size_t k = 0; k < count; k++) times[k][round] = took(whats[k], j);
    for (size_t k = 0; k < count; k++) {
        printf("%s", whats[k]);
        for (size_t round = 1; round <= rounds; round++) printf(" %.4f", times[k][round]);
        printf("\n");
    }
}

enum { MOST_LAST = 33 };

int main(int count, char **words)
{
    size_t last[MOST_LAST], many = 0; /* the gaps or radii */
    if (count < 8 || count > 8 + MOST_LAST) die("usage: bench WHAT INPUT W H N T TIMES [GAP.. | RADIUS..]");
    size_t times = number(words[7], 0, 1000000);
    int posts = strstr(words[1], "posts") != NULL;
    struct job j = make_job(words + 2);
    while (8 + (int)many < count) {
        last[many] = number(words[8 + many], 0, posts ? 3299 : 32);
        many++;
    }
    if (many > 0 && posts) j.radius = (uint32_t)last[0];
    if (many > 0 && !posts) j.gap = last[0];
    if (strcmp(words[1], "compare") == 0) {
        if (many == 0) compare(&j);
        else compare_cleaned(&j, last, many);
        return 0;
    }
    if (strcmp(words[1], "compare-posts") == 0) {
        compare_posts(&j, last, many);
        return 0;
    }
    if (strcmp(words[1], "count-posts") == 0) {
        printf("%lu\n", new_posts(&j));
        return 0;
    }
    if (strcmp(words[1], "clock-posts") == 0) {
        clock_rounds(&j, posts_turns, POSTS_TURNS, times);
        return 0;
    }
    if (strcmp(words[1], "clock") == 0) {
        if (many == 0) clock_rounds(&j, turns, TURNS, times);
        else clock_rounds(&j, cleaning_turns, CLEANING_TURNS, times);
        return 0;
    }
    if (is_check(words[1])) plan_by(tuned_plan, &j);
    for (size_t k = 0; k < times; k++)
        if (!run(words[1], &j)) die("no such thing to run");
    return 0;
}
