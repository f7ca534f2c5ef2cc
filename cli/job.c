/* kg: a job in memory: read, judged, planned, cleaned, held by posts, stored.
 *
 * Sizes are computed only once kg_read has accepted the file. Then the largest stack has 4,194,304 bytes, the largest ring planes
 * 33,488,896 numbers and the longest job 75,366,426 bytes, so no sum or product here comes near 64 bits. */
#include <stdlib.h>
#include <string.h>

#include "kg.h"

static enum status answered(struct job *job, kg_answer answer)
{
    job->answer = answer;
    return kg_number(answer) == 0 ? DONE : REFUSED;
}

enum status job_read(struct job *job, const char *name)
{
    memset(job, 0, sizeof *job);
    job->name = shown_name(name);
    enum status status = read_file(name, &job->file);
    return status == DONE ? job_take_file(job) : status;
}

enum status job_take_file(struct job *job)
{
    uint64_t told[KG_TOLD] = {0};
    enum status status = answered(job, kg_read(job->file.data, job->file.length, told, KG_TOLD));
    if (status != DONE)
        return status;
    job->w = told[KG_WIDTH];
    job->h = told[KG_HEIGHT];
    job->n = told[KG_LAYERS];
    job->pitch = (uint32_t)told[KG_PITCH];
    job->overhang = (uint32_t)told[KG_OVERHANG];
    job->stored = told[KG_STORED] != 0;
    job->part_at = told[KG_PART_AT];
    job->ring_count = kg_ring_count(job->w, job->h, job->n);

    kg_stretch part = kg_part(job->file.data, job->file.length);
    job->part = job->file.data + kg_offset(part);
    job->stack_length = kg_length(part);
    return DONE;
}

enum status job_take_stored(struct job *job)
{
    job->support = job->file.data + kg_offset(kg_support(job->file.data, job->file.length));
    job->rings = room(job->ring_count, sizeof *job->rings);
    if (job->rings == NULL)
        return UNUSABLE;
    return answered(job, kg_copy_rings(job->file.data, job->file.length, job->rings, job->ring_count));
}

enum status job_judge(struct job *job)
{
    if (!job->stored)
        return fail("%s: no support is stored, so there is nothing to judge (kg plan stores some)", job->name);
    enum status status = job_take_stored(job);
    if (status != DONE)
        return status;
    return answered(job, kg_check(job->w, job->h, job->n, job->pitch, job->overhang, job->part, job->stack_length,
                                  job->support, job->stack_length, job->rings, job->ring_count));
}

/* Plans into job->planned and the rings that are lent. */
static enum status plan_into(struct job *job, uint16_t *rings)
{
    return answered(job, kg_plan(job->w, job->h, job->n, job->pitch, job->overhang, job->part, job->stack_length,
                                 job->planned, job->stack_length, rings, job->ring_count));
}

enum status job_plan(struct job *job)
{
    job->planned = room(job->stack_length, sizeof *job->planned);
    job->rings = room(job->ring_count, sizeof *job->rings);
    if (job->planned == NULL || job->rings == NULL)
        return UNUSABLE;
    job->support = job->planned;
    return plan_into(job, job->rings);
}

enum status job_clean(struct job *job, uint64_t gap)
{
    job->planned = room(job->stack_length, sizeof *job->planned);
    job->rings = room(job->ring_count, sizeof *job->rings);
    job->cleaned = room(job->stack_length, sizeof *job->cleaned);
    if (job->planned == NULL || job->rings == NULL || job->cleaned == NULL)
        return UNUSABLE;
    job->support = job->cleaned;
    return answered(job, kg_clean(job->w, job->h, job->n, job->pitch, job->overhang, gap, job->part, job->stack_length,
                                  job->planned, job->stack_length, job->rings, job->ring_count, job->cleaned, job->stack_length));
}

enum status job_posts(struct job *job, uint64_t radius)
{
    job->posts = room(job->stack_length, sizeof *job->posts);
    if (job->posts == NULL)
        return UNUSABLE;
    enum status status = answered(job, kg_posts(job->w, job->h, job->n, job->pitch, job->overhang, (uint32_t)radius, job->part,
                                                job->stack_length, job->posts, job->stack_length));
    if (status == DONE)
        status = job_plan(job);
    job->support = job->posts;
    return status;
}

enum status job_plan_beside(struct job *job)
{
    enum status status = UNUSABLE;
    uint16_t *rings = room(job->ring_count, sizeof *rings); /* planned too, and not asked about */
    job->planned = room(job->stack_length, sizeof *job->planned);
    if (rings != NULL && job->planned != NULL)
        status = plan_into(job, rings);
    free(rings);
    return status;
}

enum status job_save(struct job *job, const char *name)
{
    /* the settings and the part as they stand in the file, then support and rings, each after its count */
    uint64_t length = job->part_at + job->stack_length + 4 + job->stack_length + 4 + 2 * job->ring_count;
    struct bytes out = {room(length, 1), 0};
    if (out.data == NULL)
        return UNUSABLE;
    enum status status = answered(job, kg_write(job->w, job->h, job->n, job->pitch, job->overhang, job->part, job->stack_length,
                                                job->support, job->stack_length, job->rings, job->ring_count, out.data, length));
    out.length = (size_t)kg_value(job->answer);
    if (status == DONE)
        status = save_file(name, &out);
    free(out.data);
    return status;
}

void job_free(struct job *job)
{
    free(job->file.data);
    free(job->original.data);
    free(job->planned);
    free(job->cleaned);
    free(job->posts);
    free(job->rings);
}

static uint64_t row_bytes(const struct job *job)
{
    return (job->w + 7) / 8;
}

const uint8_t *job_plane(const struct job *job, const uint8_t *stack, uint64_t layer)
{
    return stack + layer * job->h * row_bytes(job);
}

const uint16_t *job_rings(const struct job *job, uint64_t layer)
{
    return job->rings + layer * job->w * job->h;
}

bool job_pixel(const struct job *job, const uint8_t *plane, uint64_t row, uint64_t column)
{
    return plane[row * row_bytes(job) + column / 8] >> (7 - column % 8) & 1;
}

bool job_padded(const struct job *job, const uint8_t *plane, uint64_t row)
{
    for (uint64_t column = job->w; column % 8 != 0; column++)
        if (job_pixel(job, plane, row, column))
            return true;
    return false;
}
