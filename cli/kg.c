/* kg: plans support, cleans it, puts posts in its place, judges it, reports it and shows it, from job files. This file: arguments and main. */
#include <stdio.h>
#include <string.h>

#include "kg.h"

/* Which build of the library this is: what is proved is the code for x86-64. */
#if defined __x86_64__
#define BUILD "library for x86-64, proved"
#elif defined __aarch64__
#define BUILD "library for aarch64, a port: tested, not promised"
#else
#error "there is no library for this machine"
#endif

struct command {
    const char *name;
    const char *usage;
    int operands;
    bool has_views;     /* takes --rings, and --refused in place of its last operand */
    const char *number; /* the option that it takes with a word behind it; null for none */
    const char *help;
    enum status (*run)(const struct arguments *arguments);
};

static const struct command commands[] = {
    {"plan", "kg plan IN OUT", 2, false, NULL, help_plan, command_plan},
    {"clean", "kg clean IN OUT --gap C", 2, false, "--gap", help_clean, command_clean},
    {"posts", "kg posts IN OUT --radius T", 2, false, "--radius", help_posts, command_posts},
    {"check", "kg check JOB", 1, false, NULL, help_check, command_check},
    {"report", "kg report JOB", 1, false, NULL, help_report, command_report},
    {"show", "kg show JOB LAYER [--rings] or kg show JOB --refused [--rings]", 2, true, NULL, help_show, command_show},
};

static bool is_help(const char *word)
{
    return strcmp(word, "--help") == 0 || strcmp(word, "-h") == 0;
}

bool parse_number(const char *word, uint64_t *number)
{
    *number = 0;
    for (const char *at = word; *at != '\0' || at == word; at++) {
        if (*at < '0' || *at > '9')
            return false;
        if (*number < 1000000)
            *number = *number * 10 + (uint64_t)(*at - '0');
    }
    return true;
}

static const struct command *find_command(const char *name)
{
    for (size_t i = 0; i < sizeof commands / sizeof commands[0]; i++)
        if (strcmp(commands[i].name, name) == 0)
            return &commands[i];
    return NULL;
}

/* A word that begins with a dash and is more than a dash. */
static enum status take_option(const struct command *command, const char *word, struct arguments *arguments)
{
    if (is_help(word))
        arguments->help = true;
    else if (command->has_views && strcmp(word, "--rings") == 0)
        arguments->rings = true;
    else if (command->has_views && strcmp(word, "--refused") == 0)
        arguments->refused = true;
    else
        return fail("unknown option '%s' (see kg %s --help)", word, command->name);
    return DONE;
}

/* Takes the word behind --gap or --radius; answers the last word taken, the option itself where it is the last of all. */
static char **take_number(char *words[], struct arguments *arguments)
{
    arguments->number = words[1];
    return words[1] == NULL ? words : words + 1;
}

static enum status take_operand(const struct command *command, const char *word, struct arguments *arguments)
{
    if (arguments->count == command->operands)
        return fail("'%s' is one word too many; usage: %s", word, command->usage);
    arguments->operand[arguments->count++] = word;
    return DONE;
}

/* The words behind the command; behind `--` every word is an operand. */
static enum status take_words(const struct command *command, char *words[], struct arguments *arguments)
{
    bool options = true;
    enum status status = DONE;
    for (; *words != NULL && status == DONE; words++) {
        if (options && strcmp(*words, "--") == 0)
            options = false;
        else if (options && command->number != NULL && strcmp(*words, command->number) == 0)
            words = take_number(words, arguments);
        else if (options && (*words)[0] == '-' && (*words)[1] != '\0')
            status = take_option(command, *words, arguments);
        else
            status = take_operand(command, *words, arguments);
    }
    return status;
}

/* Whether there are as many operands as wanted: one less with --refused, which finds the layer itself. */
static enum status count_operands(const struct command *command, const struct arguments *arguments)
{
    int wanted = command->operands - (arguments->refused ? 1 : 0);
    if (arguments->count < wanted)
        return fail("too few words; usage: %s", command->usage);
    if (arguments->count > wanted)
        return fail("--refused finds the layer itself: leave '%s' out; usage: %s", arguments->operand[wanted], command->usage);
    return DONE;
}

static enum status run_command(const struct command *command, char *words[])
{
    struct arguments arguments = {{NULL, NULL}, 0, false, false, false, NULL};
    enum status status = take_words(command, words, &arguments);
    if (status != DONE)
        return status;
    if (arguments.help) {
        fputs(command->help, stdout);
        return DONE;
    }
    status = count_operands(command, &arguments);
    return status == DONE ? command->run(&arguments) : status;
}

static enum status run(int count, char *words[])
{
    if (count < 2)
        return fail("no command given (see kg --help)");
    if (is_help(words[1])) {
        fputs(help_kg, stdout);
        return DONE;
    }
    if (strcmp(words[1], "--version") == 0) {
        puts("kg " KG_VERSION " (" BUILD ")");
        return DONE;
    }
    const struct command *command = find_command(words[1]);
    if (command == NULL)
        return fail("unknown command '%s' (see kg --help)", words[1]);
    return run_command(command, words + 2);
}

int main(int count, char *words[])
{
    expect_full_files();
    enum status status = run(count, words);
    bool written = fflush(stdout) == 0 && !ferror(stdout); /* covers every print before */
    if (!written && status != UNUSABLE)
        status = fail("standard output: could not be written");
    return status;
}
