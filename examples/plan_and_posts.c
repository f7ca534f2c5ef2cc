/* Plans support for a small part, and beside it posts for a resin machine, which hold the same with fewer pixels.
 *
 * The part has one row of sixteen pixels and three layers. Layers 0 and 1 are a wall, columns 0 and 1, with a pin in layer 0; layer 2 is an arm
 * that comes from the wall, and a piece that hangs two pixels further out:
 *
 *     layer 2   ########..######
 *     layer 1   ##..............
 *     layer 0   ##...........#..
 *
 * The arm holds itself for one pixel. A post holds what is joined to it within two pixels. One of the posts of layer 1 ends on the pin.
 *
 * This file is C99 and C++. cli/build builds it; by hand, on x86-64:
 *     cc -std=c99 -Iinclude examples/plan_and_posts.c target/staticlib/libkitegimlet.a -o plan_and_posts
 */
#include <stdio.h>

#include "kitegimlet.h"

enum { WIDTH = 16, HEIGHT = 1, LAYERS = 3, PITCH = 100, OVERHANG = 100, RADIUS = 200 }; /* the last three in micrometres */
enum { ROW = (WIDTH + 7) / 8, STACK = LAYERS * HEIGHT * ROW, RINGS = (LAYERS - 1) * WIDTH * HEIGHT };

static const uint8_t part[STACK] = {0xC0, 0x04, 0xC0, 0x00, 0xFF, 0x3F}; /* layers 0, 1, 2; the highest bit is column 0 */

static void print_layer(const char *name, int layer, const uint8_t *stack)
{
    printf("%-7s of layer %d  ", name, layer);
    for (int column = 0; column < WIDTH; column++)
        putchar(stack[layer * ROW + column / 8] >> (7 - column % 8) & 1 ? '+' : '.');
    putchar('\n');
}

/* The number, and as much of a place as it has: here that can only be a row. */
static int tell_refusal(kg_answer answer)
{
    fprintf(stderr, "refused %u", kg_number(answer));
    if (kg_place_parts(answer) == 2)
        fprintf(stderr, " at layer %u, row %u", kg_layer(answer), kg_row(answer));
    fputc('\n', stderr);
    return 1;
}

int main(void)
{
    uint8_t support[STACK], posts[STACK];
    uint16_t rings[RINGS];

    kg_answer planned = kg_plan(WIDTH, HEIGHT, LAYERS, PITCH, OVERHANG, part, STACK, support, STACK, rings, RINGS);
    if (kg_number(planned) != 0)
        return tell_refusal(planned);

    /* Posts need no plan and no rings; on a refusal they are as they were. */
    kg_answer made = kg_posts(WIDTH, HEIGHT, LAYERS, PITCH, OVERHANG, RADIUS, part, STACK, posts, STACK);
    if (kg_number(made) != 0)
        return tell_refusal(made);

    for (int layer = LAYERS - 2; layer >= 0; layer--) { /* the top layer has neither */
        print_layer("support", layer, support);
        print_layer("posts", layer, posts);
    }
    return 0;
}
