/*
 * The arguments of the rig.
 */

#ifndef OPTIONS_H
#define OPTIONS_H

#include <stdio.h>

#include "round.h"

/* What the rig is asked to do. */
enum task { DRIVE_QUEUES, LIST_QUEUES, TELL_USAGE };

struct options {
    enum task task;
    struct load load;
    unsigned rounds;     /* how many at most */
    unsigned seed;       /* of the random numbers */
    int go_on;           /* whether the rounds go on after a pattern */
    const char *folder;  /* where files are kept; NULL if they are not */
    char **names;        /* the queues that are wanted, with NULL behind them; none means all */
};

/* Reads the arguments; 0 if they are at fault, which is said. */
int read_options(char **arguments, struct options *options);

/* Writes how the rig is called. */
void tell_usage(FILE *file);

/* Whether the queue of that name is wanted. */
int is_wanted(const struct options *options, const char *name);

#endif /* OPTIONS_H */
