/* kg: one layer as a picture, or the ring numbers above it as a table, with a place pointed at where one is told. */
#include <inttypes.h>
#include <stdio.h>

#include "kg.h"

static enum status parse_layer(const char *word, uint64_t *layer)
{
    return parse_number(word, layer) ? DONE : fail("LAYER is a number counted from 0, not '%s' (see kg show --help)", word);
}

static enum status find_layer(const struct job *job, const struct arguments *arguments, uint64_t layer)
{
    if (layer >= job->n)
        return fail("%s: LAYER is 0 to %" PRIu64 " in this job, not %s", job->name, job->n - 1, arguments->operand[1]);
    if (arguments->rings && layer + 1 == job->n)
        return fail("%s: layer %" PRIu64 " is the top layer: no rings lie above it", job->name, layer);
    return DONE;
}

static char character(const struct job *job, uint64_t layer, uint64_t row, uint64_t column)
{
    if (job_pixel(job, job_plane(job, job->part, layer), row, column))
        return '#';
    if (job_pixel(job, job_plane(job, job->support, layer), row, column))
        return job_pixel(job, job_plane(job, job->planned, layer), row, column) ? '+' : '*';
    if (layer + 1 < job->n && job_rings(job, layer)[row * job->w + column] != 0)
        return 'o';
    return '.';
}

/* How many pixels of the picture are support beyond the plan. */
static uint64_t count_beyond(const struct job *job, uint64_t layer)
{
    uint64_t count = 0;
    for (uint64_t row = 0; row < job->h; row++)
        for (uint64_t column = 0; column < job->w; column++)
            count += character(job, layer, row, column) == '*';
    return count;
}

/* What is shown and by which characters: * is told only where there is one, ! only where padding is. */
static void print_head(const struct job *job, const struct view *view, uint64_t beyond)
{
    printf("layer %" PRIu64 " of 0 to %" PRIu64 ", %" PRIu64 " by %" PRIu64 " pixels, support %s", view->layer, job->n - 1, job->w,
           job->h, job->stored ? "as stored" : "planned afresh, none is stored");
    if (beyond > 0)
        printf(", %" PRIu64 " pixel%s of it beyond the plan", beyond, beyond == 1 ? "" : "s");
    printf("\n# part, + support, %so excused part of the layer above, . empty%s\n", beyond > 0 ? "* support beyond the plan, " : "",
           view->padded != NULL ? ", ! bit set past the width" : "");
}

/* The line above the rows that points at the told column, at the last of its digits. */
static void point_down(const struct view *view, int digits, int between)
{
    if (kg_place_parts(view->told) == 3)
        printf("%*c\n", (int)kg_column(view->told) * (digits + between) + digits, 'v');
}

/* The end of a row's line, which points at the row where it is told. */
static void end_row(const struct view *view, uint64_t row)
{
    bool told = kg_place_parts(view->told) > 0 && kg_row(view->told) == row;
    puts(told ? " <" : "");
}

/* The bits of a row past the width, behind the border, where one of them is set. */
static void print_padding(const struct job *job, const struct view *view, uint64_t row)
{
    if (view->padded == NULL)
        return;
    const uint8_t *plane = job_plane(job, view->padded, view->layer);
    if (!job_padded(job, plane, row))
        return;
    putchar('|');
    for (uint64_t column = job->w; column % 8 != 0; column++)
        putchar(job_pixel(job, plane, row, column) ? '!' : '.');
}

static void print_picture(const struct job *job, const struct view *view)
{
    print_head(job, view, count_beyond(job, view->layer));
    point_down(view, 1, 0);
    for (uint64_t row = 0; row < job->h; row++) {
        for (uint64_t column = 0; column < job->w; column++)
            putchar(character(job, view->layer, row, column));
        print_padding(job, view, row);
        end_row(view, row);
    }
}

/* How many digits the widest number has. */
static int digits_of(const uint16_t *rings, uint64_t count)
{
    unsigned most = 0;
    int digits = 1;
    for (uint64_t i = 0; i < count; i++)
        if (rings[i] > most)
            most = rings[i];
    for (; most >= 10; most /= 10)
        digits++;
    return digits;
}

static void print_rings(const struct job *job, const struct view *view)
{
    const uint16_t *rings = job_rings(job, view->layer);
    int digits = digits_of(rings, job->w * job->h);
    printf("rings of layers %" PRIu64 " and %" PRIu64 ", %" PRIu64 " by %" PRIu64 " pixels, %s\n", view->layer, view->layer + 1, job->w,
           job->h, job->stored ? "as stored" : "planned afresh, none are stored");
    point_down(view, digits, 1);
    for (uint64_t row = 0; row < job->h; row++) {
        for (uint64_t column = 0; column < job->w; column++)
            printf("%s%*u", column == 0 ? "" : " ", digits, (unsigned)rings[row * job->w + column]);
        end_row(view, row);
    }
}

void draw(const struct job *job, const struct view *view)
{
    if (view->rings)
        print_rings(job, view);
    else
        print_picture(job, view);
}

enum status take_support(struct job *job, bool picture)
{
    if (!job->stored)
        return job_plan(job);
    enum status status = job_take_stored(job);
    if (status == DONE && picture)
        status = job_plan_beside(job);
    return status;
}

static enum status show_layer(struct job *job, const struct arguments *arguments, uint64_t layer)
{
    const struct view view = {layer, arguments->rings, 0, NULL};
    enum status status = find_layer(job, arguments, layer);
    if (status == DONE)
        status = take_support(job, !arguments->rings);
    if (status == DONE)
        draw(job, &view);
    return status;
}

enum status command_show(const struct arguments *arguments)
{
    struct job job;
    uint64_t layer;
    if (arguments->refused)
        return show_refused(arguments);
    enum status status = parse_layer(arguments->operand[1], &layer);
    if (status != DONE)
        return status;
    status = job_read(&job, arguments->operand[0]);
    if (status == DONE)
        status = show_layer(&job, arguments, layer);
    if (status == REFUSED)
        complain(&job);
    job_free(&job);
    return status;
}
