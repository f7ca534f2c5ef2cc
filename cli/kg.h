/* kg, the command-line tool: what its files share.
 *
 * kg.c       arguments and main
 * help.c     the texts of --help
 * commands.c plan, clean, posts, check and report
 * show.c     show: pictures and tables of rings
 * point.c    show --refused: finds what they point at
 * job.c      a job in memory: read, judged, planned, cleaned, held by posts, stored
 * refusals.c refusal numbers in words
 * files.c    files read whole and saved safely, memory, error messages
 */
#ifndef KG_TOOL_H
#define KG_TOOL_H

#include <stdbool.h>
#include <stddef.h>
#include <stdint.h>

#include "kitegimlet.h"

/* The exit statuses, also what functions answer that can fail. A function that answers UNUSABLE has told why on standard error;
 * one that answers REFUSED has left the library's answer in the job. */
enum status { DONE = 0, REFUSED = 1, UNUSABLE = 2 };

/* The words behind `kg COMMAND`, options taken out. */
struct arguments {
    const char *operand[2];
    int count;
    bool help;
    bool rings;
    bool refused;       /* and so there is no LAYER */
    const char *number; /* the word behind --gap or --radius; null where there is none */
};

enum status command_plan(const struct arguments *arguments);
enum status command_clean(const struct arguments *arguments);
enum status command_posts(const struct arguments *arguments);
enum status command_check(const struct arguments *arguments);
enum status command_report(const struct arguments *arguments);
enum status command_show(const struct arguments *arguments);

extern const char help_kg[], help_plan[], help_clean[], help_posts[], help_check[], help_report[], help_show[];

/* kg.c */

/* Whether a word is a number in plain digits, and which. Past 1,000,000 all numbers are alike: every limit here is lower. */
bool parse_number(const char *word, uint64_t *number);

/* files.c */

struct bytes {
    uint8_t *data;
    size_t length;
};

/* Says `kg: ...` on standard error, one line, and answers UNUSABLE. */
enum status fail(const char *format, ...);

/* Zeroed memory for `count` elements, also for 0 of them; or null, which it tells. */
void *room(uint64_t count, size_t size);

/* How a file is named in messages. */
const char *shown_name(const char *name);

/* A write that goes over a limit on file sizes then fails as on a full disk, in place of ending the program. */
void expect_full_files(void);

/* Reads a whole file, or standard input for `-`. The caller frees file->data, also after a failure. */
enum status read_file(const char *name, struct bytes *file);

/* Writes a whole file, or standard output for `-`. A file is replaced only once the new one is written and safe. */
enum status save_file(const char *name, const struct bytes *content);

/* job.c */

struct job {
    const char *name;
    struct bytes file;
    struct bytes original; /* the file as it was read, where a copy with its padding cleared has taken its place; else empty */
    kg_answer answer;      /* the library's last answer */

    uint64_t w, h, n;
    uint32_t pitch, overhang;
    bool stored; /* the file holds support */
    uint64_t part_at;

    const uint8_t *part;
    uint64_t stack_length; /* bytes of the part, and of the support */

    const uint8_t *support; /* stored, planned, cleaned or posts; null before */
    uint8_t *planned;
    uint8_t *cleaned;
    uint8_t *posts;
    uint16_t *rings;
    uint64_t ring_count;
};

/* Reads a job's settings and part. Whatever this answers, job_free is to be called at the end. */
enum status job_read(struct job *job, const char *name);

/* The same of job->file, where that is in memory. */
enum status job_take_file(struct job *job);

/* Support and rings as the file holds them; only where job->stored. */
enum status job_take_stored(struct job *job);

/* The library's verdict on what is stored, which is taken. Nothing stored is no verdict: UNUSABLE. */
enum status job_judge(struct job *job);

/* Support and rings planned afresh. */
enum status job_plan(struct job *job);

/* The same with the gaps of the support closed by a disc of `gap` pixels. */
enum status job_clean(struct job *job, uint64_t gap);

/* Posts in the support's place, with the rings planned afresh. */
enum status job_posts(struct job *job, uint64_t radius);

/* A plan to hold the stored support against: job->planned is made, support and rings stay as stored. */
enum status job_plan_beside(struct job *job);

/* Saves the job with its support and rings. */
enum status job_save(struct job *job, const char *name);

void job_free(struct job *job);

const uint8_t *job_plane(const struct job *job, const uint8_t *stack, uint64_t layer);
const uint16_t *job_rings(const struct job *job, uint64_t layer);
bool job_pixel(const struct job *job, const uint8_t *plane, uint64_t row, uint64_t column);

/* Whether a row has padding set: for job_pixel those are columns too, from job->w up to a whole byte. */
bool job_padded(const struct job *job, const uint8_t *plane, uint64_t row);

/* show.c */

/* What is drawn of a job, and what is pointed at. */
struct view {
    uint64_t layer;        /* a picture of this layer, or the rings of this layer and the next */
    bool rings;
    kg_answer told;        /* the refusal whose place is pointed at; 0 for none */
    const uint8_t *padded; /* the stack whose padding is told, as it was read; null for none */
};

/* Support and rings to draw: what is stored, for a picture with the plan beside it; or the plan itself where nothing is stored. */
enum status take_support(struct job *job, bool picture);

void draw(const struct job *job, const struct view *view);

/* point.c */

/* kg show JOB --refused. */
enum status show_refused(const struct arguments *arguments);

/* refusals.c */

/* A refusal as an answer, three lines on standard output: number and place, meaning, advice. */
void print_refusal(kg_answer answer);

/* A refusal as the head of a picture: one line on standard output, without the advice. */
void print_meaning(kg_answer answer);

/* A refusal as the report program prints it: one line on standard output, all digits. */
void print_reported(kg_answer answer);

/* A refusal as an error: one line on standard error. */
void complain(const struct job *job);

#endif
