/* kg: show --refused: the layer of the place that is refused, with the place pointed at.
 *
 * Reading refuses a job whose padding is set, so a copy with its padding cleared is drawn. Where padding is told, sizes are in range and
 * sections whole, since those are tested before: so the rows stand where docs/RULES.md says (section 5). */
#include <stdio.h>
#include <string.h>

#include "kg.h"

enum { W_AT = 4, H_AT = 6, N_AT = 8, PART_AT = 18, COUNT_BYTES = 4 };

static bool tells_row(kg_answer answer)
{
    return kg_place_parts(answer) == 2;
}

static uint64_t number_at(const struct bytes *file, size_t at)
{
    return (uint64_t)file->data[at] << 8 | file->data[at + 1];
}

/* Clears the padding of the stack whose first row stands at `at`, and answers where the stack ends. */
static uint64_t clear_padding(struct bytes *file, uint64_t at)
{
    uint64_t w = number_at(file, W_AT), row_bytes = (w + 7) / 8;
    uint64_t end = at + number_at(file, N_AT) * number_at(file, H_AT) * row_bytes;
    uint8_t pixels = (uint8_t)(0xFF << (8 * row_bytes - w));
    for (at += row_bytes; at <= end; at += row_bytes)
        file->data[at - 1] &= pixels;
    return end;
}

/* Reads a copy of the file without padding in its place. All of the part is told before the support: so a row that is told still is one of
 * the support, and then some is stored. */
static enum status read_cleared(struct job *job)
{
    struct bytes copy = {room(job->file.length, 1), job->file.length};
    if (copy.data == NULL)
        return UNUSABLE;
    memcpy(copy.data, job->file.data, copy.length);
    job->original = job->file;
    job->file = copy;
    uint64_t part_end = clear_padding(&job->file, PART_AT);
    enum status status = job_take_file(job);
    if (status == REFUSED && tells_row(job->answer)) {
        clear_padding(&job->file, part_end + COUNT_BYTES);
        status = job_take_file(job);
    }
    return status;
}

/* The stack whose padding is told, as it was read: the part, unless the told row of the part is clean. */
static const uint8_t *told_stack(const struct job *job, kg_answer told)
{
    const uint8_t *part = job->original.data + job->part_at;
    bool in_part = job_padded(job, job_plane(job, part, kg_layer(told)), kg_row(told));
    return in_part ? part : part + job->stack_length + COUNT_BYTES;
}

/* The rings that a told pixel has or lacks are those of its layer and the one below. */
static enum status find_rings(const struct job *job, struct view *view)
{
    if (tells_row(view->told))
        return fail("%s: refused %u is about a row of the images, not about rings (leave --rings out)", job->name, kg_number(view->told));
    if (view->layer == 0)
        return fail("%s: layer 0 is the lowest layer: no rings lie below it", job->name);
    view->layer--;
    return DONE;
}

/* What there is to draw: a job that was judged has its support already. */
static enum status prepare(struct job *job, struct view *view)
{
    if (view->rings)
        return find_rings(job, view);
    if (!tells_row(view->told))
        return job_plan_beside(job);
    enum status status = read_cleared(job);
    if (status == DONE)
        status = take_support(job, true);
    if (status == DONE)
        view->padded = told_stack(job, view->told);
    return status;
}

static enum status show_place(struct job *job, bool rings)
{
    struct view view = {kg_layer(job->answer), rings, job->answer, NULL};
    enum status status = prepare(job, &view);
    if (status == DONE) {
        print_meaning(view.told);
        draw(job, &view);
    }
    return status;
}

enum status show_refused(const struct arguments *arguments)
{
    struct job job;
    enum status status = job_read(&job, arguments->operand[0]);
    if (status == DONE)
        status = job_judge(&job);
    if (status == DONE)
        puts("accepted: nothing is refused");
    if (status == REFUSED && kg_place_parts(job.answer) > 0)
        status = show_place(&job, arguments->rings);
    if (status == REFUSED)
        complain(&job);
    job_free(&job);
    return status;
}
