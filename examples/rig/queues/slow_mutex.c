/*
 * A correct queue whose operations last: an array behind a lock, where a client lets others go first
 * before and after each step. So operations overlap even if all clients share a processor, and a rig
 * that took them for shorter than they are would fail this queue.
 */

#include <sched.h>

#include "locked_array.h"

/* Lets others go first, in turn not at all, once and twice, so that clients do not keep step. */
static void let_others_go(void)
{
    static _Thread_local unsigned calls;
    for (unsigned times = calls++ % 3; times > 0; times--)
        sched_yield();
}

static int add_slowly(void *queue, uint32_t value)
{
    let_others_go();
    int added = add(queue, value);
    let_others_go();
    return added;
}

static int take_slowly(void *queue, uint32_t *value)
{
    let_others_go();
    int found = take(queue, value);
    let_others_go();
    return found;
}

QUEUE_KIND(slow_mutex) = {"first in, first out", make, destroy, NULL, NULL,
                          add_slowly, take_slowly};
