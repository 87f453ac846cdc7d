#include "options.h"

#include <errno.h>
#include <stdio.h>
#include <stdlib.h>
#include <string.h>

#include "queues.h"
#include "trouble.h"

#define MIN_CLIENTS 2

/* In so many rounds of MAX_OPERATIONS adds there is a value of 32 bits for each. */
#define MAX_ROUNDS 8000000

static const struct options standard = {DRIVE_QUEUES, {4, 64, 0}, 1000, 1, 0, NULL, NULL};

void tell_usage(FILE *file)
{
    fprintf(file,
            "usage: rig [OPTION]... [QUEUE]...\n"
            "Drives each QUEUE, or all there are, round by round until a pattern is found.\n"
            "    --clients N     threads, %u to %u (%u)\n"
            "    --operations N  adds and removes of all clients in a round, 1 to %u (%u)\n"
            "    --rounds N      rounds at most, 1 to %u (%u)\n"
            "    --seed N        another mix of adds and removes (%u)\n"
            "    --lose-client   in each round one client stops for good, before a remove or after\n"
            "                    it: the log has the call of this remove and no return\n"
            "    --go-on         does not stop at the first pattern\n"
            "    --keep FOLDER   writes files of the first pattern, or else of the last round:\n"
            "                    QUEUE.log and QUEUE.sheet, and with a pattern, if no client\n"
            "                    was lost, QUEUE.excerpt.log and QUEUE.excerpt.page\n"
            "    --list          names the queues and what they promise\n"
            "    --help          tells this\n"
            "The exit status is 0 if every round had an order, 1 if a pattern was found, and 2 if\n"
            "there was trouble.\n",
            MIN_CLIENTS, MAX_CLIENTS, standard.load.clients, MAX_OPERATIONS,
            standard.load.operations, MAX_ROUNDS, standard.rounds, standard.seed);
}

/* Reads a number from low to high. */
static int read_number(const char *text, unsigned low, unsigned high, unsigned *number)
{
    char *end;
    errno = 0;
    unsigned long read = strtoul(text, &end, 10);
    if (text[0] < '0' || text[0] > '9' || *end != '\0' || errno != 0 || read < low || read > high)
        return 0;
    *number = (unsigned)read;
    return 1;
}

/* Reads an option that has a value behind it. */
static int read_valued(const char *option, const char *value, struct options *options)
{
    if (value == NULL)
        return 0;
    if (strcmp(option, "--clients") == 0)
        return read_number(value, MIN_CLIENTS, MAX_CLIENTS, &options->load.clients);
    if (strcmp(option, "--operations") == 0)
        return read_number(value, 1, MAX_OPERATIONS, &options->load.operations);
    if (strcmp(option, "--rounds") == 0)
        return read_number(value, 1, MAX_ROUNDS, &options->rounds);
    if (strcmp(option, "--seed") == 0)
        return read_number(value, 0, UINT32_MAX, &options->seed);
    if (strcmp(option, "--keep") == 0) {
        options->folder = value;
        return 1;
    }
    return 0;
}

/* Reads an option that stands alone. */
static int read_single(const char *option, struct options *options)
{
    if (strcmp(option, "--go-on") == 0)
        options->go_on = 1;
    else if (strcmp(option, "--lose-client") == 0)
        options->load.loses_client = 1;
    else if (strcmp(option, "--list") == 0)
        options->task = LIST_QUEUES;
    else if (strcmp(option, "--help") == 0)
        options->task = TELL_USAGE;
    else
        return 0;
    return 1;
}

/* Reads the options; NULL if they are at fault, or else the arguments behind them. */
static char **read_all(char **arguments, struct options *options)
{
    while (*arguments != NULL && (*arguments)[0] == '-') {
        if (read_single(arguments[0], options))
            arguments++;
        else if (read_valued(arguments[0], arguments[1], options))
            arguments += 2;
        else
            return NULL;
    }
    return arguments;
}

int read_options(char **arguments, struct options *options)
{
    *options = standard;
    options->names = read_all(arguments, options);
    if (options->names == NULL) {
        tell_usage(stderr);
        return 0;
    }
    for (char **name = options->names; *name != NULL; name++)
        if (find_queue(*name) == NULL)
            return trouble("there is no queue %s; --list names those that there are", *name);
    return 1;
}

int is_wanted(const struct options *options, const char *name)
{
    char **names = options->names;
    if (*names == NULL)
        return 1;
    while (*names != NULL && strcmp(*names, name) != 0)
        names++;
    return *names != NULL;
}
