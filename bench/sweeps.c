/* Counts sweeps and visits: replays, from the rings that the tuned peer planned, what is left to sweeps after the waves by rows.
 *
 * usage: sweeps INPUT N R
 *
 * INPUT has N layers of 256 x 256, R is the reach in pixels. Prints two lines, of the order that the library had and of the one that it
 * has: pairs that are swept, pixels that get their ring by sweeps, sweeps, visits. In the first, every sweep goes down, and a visit looks at
 * its neighbours and, where its ring falls, marks them all; waves end where one has new pixels in fewer than 16 rows. In the second, sweeps
 * go down and up in turn, and a visit tells its neighbours their ring and marks those whose ring fell; waves end below 6 rows. Pairs that
 * leave no pixel to sweeps are left out. Either must end with the rings planned.
 */
#include "inputs.h"
#include "peers.h"

#include <stdio.h>
#include <stdlib.h>
#include <string.h>

enum { SIDE = 256, PIXELS = SIDE * SIDE, PITCH = 100, WORD = 64 };

static struct {
    uint32_t level[PIXELS]; /* the ring, NONE where there is none */
    uint8_t later[PIXELS];  /* whether it gets its ring by sweeps */
    uint8_t mark[PIXELS];
    unsigned marks[SIDE]; /* of a row */
} s;

static const uint32_t NONE = 65536;

struct count {
    unsigned long pairs, pixels, sweeps, visits;
};

static void die(const char *why)
{
    fprintf(stderr, "sweeps: %s\n", why);
    exit(2);
}

static void mark(int p, int on)
{
    s.marks[p / SIDE] += (unsigned)on - s.mark[p];
    s.mark[p] = (uint8_t)on;
}

/* The pixel's neighbours; answers how many. */
static int around(int p, int *o)
{
    int n = 0;
    for (int r = p / SIDE - 1; r <= p / SIDE + 1; r++)
        for (int c = p % SIDE - 1; c <= p % SIDE + 1; c++)
            if (r >= 0 && r < SIDE && c >= 0 && c < SIDE && r * SIDE + c != p) o[n++] = r * SIDE + c;
    return n;
}

/* The first or the last mark of a word, and -1 where it has none. */
static int marked(int word, int last)
{
    for (int k = 0; k < WORD; k++) {
        int p = word * WORD + (last ? WORD - 1 - k : k);
        if (s.mark[p]) return p;
    }
    return -1;
}

/* Answers whether the ring fell. */
static int look(int p)
{
    int o[8], n = around(p, o);
    uint32_t best = s.level[p];
    for (int k = 0; k < n; k++)
        if (s.level[o[k]] < best) best = s.level[o[k]];
    mark(p, 0);
    if (best + 1 >= s.level[p]) return 0;
    s.level[p] = best + 1;
    for (int k = 0; k < n; k++)
        if (s.later[o[k]]) mark(o[k], 1);
    return 1;
}

static void tell(int p)
{
    int o[8], n = around(p, o);
    for (int k = 0; k < n; k++)
        if (s.later[o[k]] && s.level[o[k]] > s.level[p] + 1) {
            s.level[o[k]] = s.level[p] + 1;
            mark(o[k], 1);
        }
    mark(p, 0);
}

/* Visits the marks of a row until it has none; answers whether a ring fell. */
static int settle_row(int row, int in_turn, struct count *c)
{
    int fell = 0;
    for (int q = 0; q < SIDE / WORD;) {
        int p = marked(row * (SIDE / WORD) + q, in_turn), back = 1;
        if (p < 0) {
            q++;
            continue;
        }
        c->visits++;
        if (in_turn) tell(p);
        else fell |= back = look(p);
        if (back && q > 0) q--;
    }
    return fell;
}

/* Answers whether another sweep is needed: a ring fell, or marks are left behind. */
static int sweep(int up, int in_turn, struct count *c)
{
    int again = 0;
    c->sweeps++;
    for (int r = 0; r < SIDE; r++) {
        int row = up ? SIDE - 1 - r : r, behind = up ? row + 1 : row - 1;
        if (s.marks[row] == 0) continue;
        again |= settle_row(row, in_turn, c);
        if (in_turn && r > 0) again |= s.marks[behind] != 0;
    }
    return again;
}

static unsigned rows_with(const uint16_t *ring, unsigned v)
{
    unsigned rows = 0;
    for (int row = 0; row < SIDE; row++)
        for (int c = 0; c < SIDE; c++)
            if (ring[row * SIDE + c] == v) {
                rows++;
                break;
            }
    return rows;
}

/* The last wave by rows: those that are near by themselves come in pairs, and then all that have new pixels in enough rows. */
static unsigned last_wave(const uint16_t *ring, unsigned reach, unsigned least)
{
    unsigned t = 0, k = 1;
    while (2 * (t + 1) * (t + 1) <= reach * reach) t++;
    while (k + 1 < t) k += 2;
    do k++;
    while (rows_with(ring, k) >= least);
    return k;
}

static void replay(const uint16_t *ring, unsigned reach, int in_turn, struct count *c)
{
    unsigned wave = last_wave(ring, reach, in_turn ? 6 : 16);
    unsigned long left = 0;
    memset(&s, 0, sizeof s);
    for (int p = 0; p < PIXELS; p++) {
        s.later[p] = ring[p] > wave;
        s.level[p] = ring[p] != 0 && ring[p] <= wave ? ring[p] : NONE;
        left += s.later[p];
    }
    if (left == 0) return;
    c->pairs++;
    c->pixels += left;
    for (int p = 0; p < PIXELS; p++) {
        int o[8], n = around(p, o);
        if (in_turn && ring[p] == wave) mark(p, 1);
        for (int k = 0; !in_turn && s.later[p] && k < n; k++)
            if (ring[o[k]] == wave) mark(p, 1);
    }
    for (int up = 0; sweep(up, in_turn, c);) up = in_turn && !up;
    for (int p = 0; p < PIXELS; p++)
        if (s.level[p] != (ring[p] == 0 ? NONE : ring[p])) die("the rings are not those planned");
}

int main(int count, char **words)
{
    if (count != 4) die("usage: sweeps INPUT N R");
    const struct input *input = find_input(words[1]);
    struct size size = {SIDE, SIDE, (size_t)atoi(words[2])};
    unsigned reach = (unsigned)atoi(words[3]);
    struct count counts[2] = {{0, 0, 0, 0}, {0, 0, 0, 0}};
    if (input == NULL || size.n < 2 || size.n > 512 || reach < 2 || reach > 32) die("no such input, layers or reach");
    uint8_t *part = calloc(stack_bytes(size), 1), *support = malloc(stack_bytes(size));
    uint16_t *rings = malloc(ring_count(size) * sizeof *rings);
    if (part == NULL || support == NULL || rings == NULL) die("out of memory");
    input->draw(size, part);
    if (tuned_plan(SIDE, SIDE, size.n, PITCH, reach * PITCH, part, stack_bytes(size), support, stack_bytes(size), rings, ring_count(size)) != 0)
        die("the plan was refused");
    for (int in_turn = 0; in_turn < 2; in_turn++) {
        struct count *c = &counts[in_turn];
        for (size_t i = 0; i + 1 < size.n; i++) replay(rings + i * PIXELS, reach, in_turn, c);
        printf("%lu %lu %lu %lu\n", c->pairs, c->pixels, c->sweeps, c->visits);
    }
    free(part);
    free(support);
    free(rings);
    return 0;
}
