/* kg: refusal numbers in words. The words stand in docs/REFUSALS.md alone; cli/make_words makes words.h of them. */
#include <stdio.h>

#include "kg.h"
#include "words.h"

static const struct words *words_of(unsigned number)
{
    static const struct words unknown = {0, "The help page does not have this number.", "See docs/REFUSALS.md."};
    for (size_t i = 0; i < sizeof all_words / sizeof all_words[0]; i++)
        if (all_words[i].number == number)
            return &all_words[i];
    return &unknown;
}

/* What stands before each part of a place: for people, and on the report program's own line. */
static const char *const in_words[] = {" at layer ", ", row ", ", column "};
static const char *const in_digits[] = {" ", " ", " "};

/* The number, and as much of a place as it has. */
static void print_number(FILE *to, kg_answer answer, const char *const before[])
{
    const unsigned place[] = {kg_layer(answer), kg_row(answer), kg_column(answer)};
    fprintf(to, "refused %u", kg_number(answer));
    for (unsigned i = 0; i < kg_place_parts(answer); i++)
        fprintf(to, "%s%u", before[i], place[i]);
}

void print_refusal(kg_answer answer)
{
    const struct words *words = words_of(kg_number(answer));
    print_number(stdout, answer, in_words);
    printf("\n%s\n%s\n", words->meaning, words->advice);
}

void print_meaning(kg_answer answer)
{
    print_number(stdout, answer, in_words);
    printf(": %s\n", words_of(kg_number(answer))->meaning);
}

void print_reported(kg_answer answer)
{
    print_number(stdout, answer, in_digits);
    putchar('\n');
}

void complain(const struct job *job)
{
    const struct words *words = words_of(kg_number(job->answer));
    fprintf(stderr, "kg: %s: ", job->name);
    print_number(stderr, job->answer, in_words);
    fprintf(stderr, ": %s %s\n", words->meaning, words->advice);
}
