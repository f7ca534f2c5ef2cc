/* The parts are drawn by runs of pixels or by bytes, so that making one costs little beside planning it. Lengths that are given for
 * 256 x 256 shrink with narrower images.
 */
#include "inputs.h"

#include <string.h>

size_t row_bytes(struct size s) { return (s.w + 7) / 8; }
size_t stack_bytes(struct size s) { return s.n * s.h * row_bytes(s); }
size_t ring_count(struct size s) { return (s.n - 1) * s.w * s.h; }

/* ---- Pixels and runs ---- */

static uint8_t *row_of(struct size s, uint8_t *part, size_t z, size_t y) { return part + (z * s.h + y) * row_bytes(s); }

static int filled(const uint8_t *row, size_t x) { return row[x / 8] >> (7 - x % 8) & 1; }

static void fill(uint8_t *row, size_t x) { row[x / 8] |= (uint8_t)(128u >> x % 8); }

/* Fills the columns from a on and before b. */
static void run(uint8_t *row, size_t a, size_t b)
{
    for (; a < b && a % 8 != 0; a++) fill(row, a);
    for (; a + 8 <= b; a += 8) row[a / 8] = 255;
    for (; a < b; a++) fill(row, a);
}

/* ---- Empty, solid, noise ---- */

static void draw_empty(struct size s, uint8_t *part)
{
    (void)s;
    (void)part;
}

static void draw_solid(struct size s, uint8_t *part)
{
    for (size_t z = 0; z < s.n; z++)
        for (size_t y = 0; y < s.h; y++) run(row_of(s, part, z, y), 0, s.w);
}

/* Each pixel is filled or not, by a generator with a fixed seed (xorshift, 64 bits). */
static void draw_noise(struct size s, uint8_t *part)
{
    uint64_t state = 0x9e3779b97f4a7c15u;
    for (size_t z = 0; z < s.n; z++)
        for (size_t y = 0; y < s.h; y++) {
            uint8_t *row = row_of(s, part, z, y);
            for (size_t k = 0; k < row_bytes(s); k++) {
                state ^= state << 13;
                state ^= state >> 7;
                state ^= state << 17;
                row[k] = (uint8_t)(state >> 32);
            }
            row[row_bytes(s) - 1] &= (uint8_t)(255u << (8 * row_bytes(s) - s.w));
        }
}

/* ---- Sphere ---- */

static size_t smaller(size_t a, size_t b) { return a < b ? a : b; }

/* A sphere of diameter 240, as high as the stack: below its middle each layer hangs over the one below, above it none does. Lengths
 * are counted in half pixels, so that the centre is whole. */
static void draw_sphere(struct size s, uint8_t *part)
{
    int64_t w = (int64_t)s.w, h = (int64_t)s.h, n = (int64_t)s.n, diameter = (int64_t)smaller(s.w, s.h) * 15 / 16;
    for (int64_t z = 0; z < n; z++) {
        int64_t square = diameter * diameter * (2 * z + 1) * (2 * n - 2 * z - 1) / (n * n), half = 0;
        for (int64_t y = 0; y < h; y++) {
            int64_t dy = 2 * y + 1 - h, left = square - dy * dy;
            if (left < 0) continue;
            while (half * half > left) half--;
            while ((half + 1) * (half + 1) <= left) half++;
            run(row_of(s, part, (size_t)z, (size_t)y), (size_t)((w - half) / 2), (size_t)((w + half + 1) / 2));
        }
    }
}

/* ---- Lattice ---- */

/* Two walls; long tongues out of the left one and short shelves out of the right one, which come and go every 48 layers; struts of 6 x 6
 * pixels, 64 apart, that lean by one column and two rows a layer. */
static void draw_lattice(struct size s, uint8_t *part)
{
    size_t wall = s.w * 24 / 256, tongue = s.w * 144 / 256, shelf = s.w - s.w * 36 / 256;
    for (size_t z = 0; z < s.n; z++)
        for (size_t y = 0; y < s.h; y++) {
            uint8_t *row = row_of(s, part, z, y);
            int even = y / 16 % 2 == 0, time = (int)(z / 8 % 6);
            run(row, 0, even && time == 2 ? tongue : wall);
            run(row, !even && time == 5 ? shelf : s.w - wall, s.w);
            if ((y + 2 * z) % 64 < 6)
                for (size_t x = 0; x < s.w; x++)
                    if ((x + z) % 64 < 6) fill(row, x);
        }
}

/* ---- Spiral ---- */

struct pixel {
    size_t y, x;
};

/* A spiral one pixel wide with gaps of one pixel, from the first pixel inward: right, down, left, up, and each leg two pixels
 * shorter than the last one along the same axis, but for the first leg to the left. Answers where it ends. */
static struct pixel draw_path(struct size s, uint8_t *plane)
{
    static const int down[4] = {0, 1, 0, -1}, right[4] = {1, 0, -1, 0};
    int64_t length[2] = {(int64_t)s.w - 1, (int64_t)s.h - 1}, y = 0, x = 0;
    fill(plane, 0);
    for (int leg = 0; length[leg % 2] > 0; leg++) {
        for (int64_t k = 0; k < length[leg % 2]; k++) {
            y += down[leg % 4];
            x += right[leg % 4];
            fill(plane + (size_t)y * row_bytes(s), (size_t)x);
        }
        if (leg > 0) length[leg % 2] -= 2;
    }
    return (struct pixel){(size_t)y, (size_t)x};
}

/* The first pixel of the 6 x 6 from there on that the path leaves free. */
static void draw_dot(struct size s, const uint8_t *path, uint8_t *plane, size_t top, size_t left)
{
    for (size_t y = top; y < smaller(top + 6, s.h); y++)
        for (size_t x = left; x < smaller(left + 6, s.w); x++)
            if (!filled(path + y * row_bytes(s), x)) {
                fill(plane + y * row_bytes(s), x);
                return;
            }
}

/* Every odd layer is a spiral. Every even one has the spiral's end, which is the only seed, and dots beside the spiral, so that all of it
 * is near: each pixel of the spiral has a ring, and the search can only follow it. */
static void draw_spiral(struct size s, uint8_t *part)
{
    size_t plane = s.h * row_bytes(s);
    uint8_t path[256 * 32] = {0}, dots[256 * 32] = {0};
    struct pixel end = draw_path(s, path);
    fill(dots + end.y * row_bytes(s), end.x);
    for (size_t y = 8; y < s.h; y += 20)
        for (size_t x = 8; x < s.w; x += 20) draw_dot(s, path, dots, y, x);
    for (size_t z = 0; z < s.n; z++) memcpy(part + z * plane, z % 2 == 0 ? dots : path, plane);
}

/* ---- Meander, wide, maze ---- */

/* Whether a path of that width, which goes to and fro with gaps as wide, has the pixel `across` and `along`, where a leg is `long` pixels. */
static int on_path(size_t across, size_t along, size_t length, size_t wide)
{
    size_t leg = across / (2 * wide);
    if (across % (2 * wide) < wide) return 1;
    return leg % 2 == 0 ? along + wide >= length : along < wide;
}

/* Every odd layer is such a path, along rows and along columns in turn. Every even one has its first pixel, which is the only seed, and
 * dots beside the path, so that all of it is near. */
static void draw_to_and_fro(struct size s, uint8_t *part, size_t wide)
{
    size_t plane = s.h * row_bytes(s);
    for (size_t z = 0; z + 1 < s.n; z += 2) {
        uint8_t *dots = part + z * plane, *path = dots + plane;
        for (size_t y = 0; y < s.h; y++)
            for (size_t x = 0; x < s.w; x++)
                if (z / 2 % 2 == 0 ? on_path(y, x, s.w, wide) : on_path(x, y, s.h, wide)) fill(path + y * row_bytes(s), x);
        fill(dots, 0);
        for (size_t y = 8; y < s.h; y += 20)
            for (size_t x = 8; x < s.w; x += 20) draw_dot(s, path, dots, y, x);
    }
}

static void draw_meander(struct size s, uint8_t *part) { draw_to_and_fro(s, part, 1); }

static void draw_wide(struct size s, uint8_t *part) { draw_to_and_fro(s, part, 5); }

/* Every odd layer is noise with 45 of 100 pixels; every even one has dots beside them and one seed in the middle: paths with many loops. */
static void draw_maze(struct size s, uint8_t *part)
{
    uint64_t state = 0x9e3779b97f4a7c15u;
    for (size_t z = 0; z + 1 < s.n; z += 2) {
        uint8_t *dots = row_of(s, part, z, 0), *maze = row_of(s, part, z + 1, 0);
        for (size_t y = 0; y < s.h; y++)
            for (size_t x = 0; x < s.w; x++) {
                state ^= state << 13;
                state ^= state >> 7;
                state ^= state << 17;
                if ((state >> 32) % 100 < 45) fill(maze + y * row_bytes(s), x);
            }
        for (size_t y = 8; y < s.h; y += 20)
            for (size_t x = 8; x < s.w; x += 20) draw_dot(s, maze, dots, y, x);
        fill(dots + s.h / 2 * row_bytes(s), s.w / 2);
        fill(maze + s.h / 2 * row_bytes(s), s.w / 2);
    }
}

static const struct input inputs[] = {
    {"empty", draw_empty}, {"solid", draw_solid}, {"sphere", draw_sphere},
    {"lattice", draw_lattice}, {"noise", draw_noise}, {"spiral", draw_spiral},
    {"meander", draw_meander}, {"wide", draw_wide}, {"maze", draw_maze},
};

const struct input *find_input(const char *name)
{
    for (size_t k = 0; k < sizeof inputs / sizeof *inputs; k++)
        if (strcmp(inputs[k].name, name) == 0) return &inputs[k];
    return NULL;
}
