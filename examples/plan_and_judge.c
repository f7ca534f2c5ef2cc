/* Plans support for a small part, then judges the planned support and two that somebody painted.
 *
 * The part has one row of eight pixels and two layers. Layer 0 is a wall, columns 0 to 2. Layer 1 is the wall with a lip, column 3, and a
 * tongue, columns 5 to 7, that is near the wall and not joined to it:
 *
 *     layer 1   ####.###
 *     layer 0   ###.....
 *
 * The lip holds itself. All of the tongue needs support, its near end too. One painter left that end out. Another painted all of it, and one
 * pixel in layer 1, beside the lip, that stands on nothing: where part hangs the number is 11, where support does it is 19.
 *
 * This file is C99 and C++. cli/build builds it; by hand, on x86-64:
 *     cc -std=c99 -Iinclude examples/plan_and_judge.c target/staticlib/libkitegimlet.a -o plan_and_judge
 */
#include <stdio.h>

#include "kitegimlet.h"

enum { WIDTH = 8, HEIGHT = 1, LAYERS = 2, PITCH = 100, OVERHANG = 300 }; /* pitch and overhang in micrometres */
enum { STACK = LAYERS * HEIGHT * ((WIDTH + 7) / 8), RINGS = (LAYERS - 1) * WIDTH * HEIGHT };

static const uint8_t part[STACK] = {0xE0, 0xF7};     /* layer 0, layer 1; the highest bit is column 0 */
static const uint8_t painted[STACK] = {0x03, 0x00};  /* columns 6 and 7 of layer 0 */
static const uint8_t floating[STACK] = {0x07, 0x08}; /* columns 5 to 7 of layer 0, column 4 of layer 1 */

static void print_row(const char *name, uint8_t row)
{
    printf("%-16s", name);
    for (int column = 0; column < WIDTH; column++)
        putchar(row >> (7 - column) & 1 ? '+' : '.');
    putchar('\n');
}

/* The number, and as much of a place as it has: a row has two parts, a pixel three. */
static void print_refusal(FILE *to, kg_answer answer)
{
    fprintf(to, "refused %u", kg_number(answer));
    if (kg_place_parts(answer) >= 2)
        fprintf(to, " at layer %u, row %u", kg_layer(answer), kg_row(answer));
    if (kg_place_parts(answer) == 3)
        fprintf(to, ", column %u", kg_column(answer));
    fputc('\n', to);
}

static void print_verdict(const char *name, kg_answer verdict)
{
    printf("%s: ", name);
    if (kg_number(verdict) == 0)
        puts("accepted");
    else
        print_refusal(stdout, verdict);
}

int main(void)
{
    uint8_t support[STACK];
    uint16_t rings[RINGS];

    /* The caller lends all memory. A number other than 0 is a refusal, and then support and rings are as they were. */
    kg_answer planned = kg_plan(WIDTH, HEIGHT, LAYERS, PITCH, OVERHANG, part, STACK, support, STACK, rings, RINGS);
    if (kg_number(planned) != 0) {
        print_refusal(stderr, planned);
        return 1;
    }
    print_row("planned support", support[0]);
    print_row("painted support", painted[0]);
    print_verdict("planned", kg_check(WIDTH, HEIGHT, LAYERS, PITCH, OVERHANG, part, STACK, support, STACK, rings, RINGS));

    /* Any support can be judged. The planner's rings say which pixels hold themselves. */
    print_verdict("painted", kg_check(WIDTH, HEIGHT, LAYERS, PITCH, OVERHANG, part, STACK, painted, STACK, rings, RINGS));
    print_verdict("floating", kg_check(WIDTH, HEIGHT, LAYERS, PITCH, OVERHANG, part, STACK, floating, STACK, rings, RINGS));
    return 0;
}
