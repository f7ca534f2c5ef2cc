/* kg: plan, clean, posts, check and report. Each is one story of steps that stops at the first that does not answer DONE. */
#include <inttypes.h>
#include <stdio.h>

#include "kg.h"

/* The end of plan, of clean and of posts: saves a job whose support was made, or tells why it was not. */
static enum status store(struct job *job, const char *out, enum status made)
{
    enum status status = made;
    if (status == DONE)
        status = job_save(job, out);
    if (status == REFUSED)
        complain(job);
    job_free(job);
    return status;
}

enum status command_plan(const struct arguments *arguments)
{
    struct job job;
    enum status status = job_read(&job, arguments->operand[0]);
    if (status == DONE)
        status = job_plan(&job);
    return store(&job, arguments->operand[1], status);
}

/* Which gaps are too large the library says, so only what is no number is misuse. */
static enum status parse_gap(const char *word, uint64_t *gap)
{
    if (word == NULL)
        return fail("--gap with a number from 0 to 32 is missing; usage: kg clean IN OUT --gap C");
    if (!parse_number(word, gap))
        return fail("C behind --gap is a number from 0 to 32, not '%s' (see kg clean --help)", word);
    return DONE;
}

enum status command_clean(const struct arguments *arguments)
{
    struct job job;
    uint64_t gap;
    enum status status = parse_gap(arguments->number, &gap);
    if (status != DONE)
        return status;
    status = job_read(&job, arguments->operand[0]);
    if (status == DONE)
        status = job_clean(&job, gap);
    return store(&job, arguments->operand[1], status);
}

/* Which radii are too large the library says too. */
static enum status parse_radius(const char *word, uint64_t *radius)
{
    if (word == NULL)
        return fail("--radius with a number from 0 to 10000 is missing; usage: kg posts IN OUT --radius T");
    if (!parse_number(word, radius))
        return fail("T behind --radius is a number from 0 to 10000, not '%s' (see kg posts --help)", word);
    return DONE;
}

enum status command_posts(const struct arguments *arguments)
{
    struct job job;
    uint64_t radius;
    enum status status = parse_radius(arguments->number, &radius);
    if (status != DONE)
        return status;
    status = job_read(&job, arguments->operand[0]);
    if (status == DONE)
        status = job_posts(&job, radius);
    return store(&job, arguments->operand[1], status);
}

enum status command_check(const struct arguments *arguments)
{
    struct job job;
    enum status status = job_read(&job, arguments->operand[0]);
    if (status == DONE)
        status = job_judge(&job);
    if (status == DONE)
        puts("accepted");
    if (status == REFUSED)
        print_refusal(job.answer);
    job_free(&job);
    return status;
}

static unsigned bits_of(unsigned byte)
{
    unsigned count = 0;
    for (; byte != 0; byte >>= 1)
        count += byte & 1;
    return count;
}

static uint64_t count_pixels(const struct job *job, const uint8_t *stack, uint64_t layer)
{
    const uint8_t *plane = job_plane(job, stack, layer);
    uint64_t length = job->stack_length / job->n, count = 0;
    for (uint64_t i = 0; i < length; i++)
        count += bits_of(plane[i]);
    return count;
}

/* Pixels with a ring in the pair above a layer; the top layer has no pair. */
static uint64_t count_excused(const struct job *job, uint64_t layer)
{
    if (layer + 1 == job->n)
        return 0;
    const uint16_t *rings = job_rings(job, layer);
    uint64_t count = 0;
    for (uint64_t i = 0; i < job->w * job->h; i++)
        count += rings[i] != 0;
    return count;
}

static void print_report(const struct job *job)
{
    uint64_t reach = kg_value(kg_reach(job->pitch, job->overhang));
    printf("job %" PRIu64 " %" PRIu64 " %" PRIu64 " reach %" PRIu64 "\n", job->w, job->h, job->n, reach);
    for (uint64_t layer = job->n; layer-- > 0;)
        printf("%" PRIu64 " %" PRIu64 " %" PRIu64 " %" PRIu64 "\n", layer, count_pixels(job, job->part, layer),
               count_pixels(job, job->support, layer), count_excused(job, layer));
}

enum status command_report(const struct arguments *arguments)
{
    struct job job;
    enum status status = job_read(&job, arguments->operand[0]);
    if (status == DONE)
        status = job_plan(&job);
    if (status == DONE)
        print_report(&job);
    if (status == REFUSED) {
        print_reported(job.answer);
        complain(&job);
    }
    job_free(&job);
    return status;
}
