/*
 * The queues that were built into the rig.
 */

#ifndef QUEUES_H
#define QUEUES_H

#include "queue.h"

struct queue {
    const char *name;
    const struct queue_kind *kind;
};

/* All of them; behind the last stands one without a name. */
extern const struct queue queues[];

/* The queue of that name; NULL if there is none. */
const struct queue *find_queue(const char *name);

#endif /* QUEUES_H */
