/* Plans support for a small part, closes a thin gap in it, and judges what came out.
 *
 * The part has one row of sixteen pixels and two layers. Layer 0 is a wall, columns 0 and 1. Layer 1 is an arm that comes from the wall, and
 * a piece that hangs two pixels further out:
 *
 *     layer 1   ########..######
 *     layer 0   ##..............
 *
 * The arm holds itself for one pixel. The support below the rest has a gap of two pixels, which a disc of one pixel's radius, three pixels
 * across, closes.
 *
 * This file is C99 and C++. cli/build builds it; by hand, on x86-64:
 *     cc -std=c99 -Iinclude examples/plan_and_clean.c target/staticlib/libkitegimlet.a -o plan_and_clean
 */
#include <stdio.h>

#include "kitegimlet.h"

enum { WIDTH = 16, HEIGHT = 1, LAYERS = 2, PITCH = 100, OVERHANG = 100 }; /* pitch and overhang in micrometres */
enum { GAP = 1 };                                                         /* the disc's radius, in whole pixels */
enum { ROW = (WIDTH + 7) / 8, STACK = LAYERS * HEIGHT * ROW, RINGS = (LAYERS - 1) * WIDTH * HEIGHT };

static const uint8_t part[STACK] = {0xC0, 0x00, 0xFF, 0x3F}; /* layer 0, layer 1; the highest bit is column 0 */

static void print_row(const char *name, const uint8_t *row)
{
    printf("%-16s", name);
    for (int column = 0; column < WIDTH; column++)
        putchar(row[column / 8] >> (7 - column % 8) & 1 ? '+' : '.');
    putchar('\n');
}

/* The number, and as much of a place as it has: a row has two parts, a pixel three. */
static void print_refusal(FILE *to, kg_answer answer)
{
    fprintf(to, "refused %u", kg_number(answer));
    if (kg_place_parts(answer) >= 2)
        fprintf(to, " at layer %u, row %u", kg_layer(answer), kg_row(answer));
    if (kg_place_parts(answer) == 3)
        fprintf(to, ", column %u", kg_column(answer));
    fputc('\n', to);
}

int main(void)
{
    uint8_t support[STACK], cleaned[STACK];
    uint16_t rings[RINGS];

    /* One call plans and cleans: support and rings are those of kg_plan. On a refusal all three are as they were. */
    kg_answer made = kg_clean(WIDTH, HEIGHT, LAYERS, PITCH, OVERHANG, GAP, part, STACK, support, STACK, rings, RINGS, cleaned, STACK);
    if (kg_number(made) != 0) {
        print_refusal(stderr, made);
        return 1;
    }
    print_row("planned support", support);
    print_row("cleaned support", cleaned);

    /* The cleaned support is judged with the planner's rings. */
    kg_answer verdict = kg_check(WIDTH, HEIGHT, LAYERS, PITCH, OVERHANG, part, STACK, cleaned, STACK, rings, RINGS);
    printf("cleaned: ");
    if (kg_number(verdict) == 0)
        puts("accepted");
    else
        print_refusal(stdout, verdict);
    return 0;
}
