/*
 * A queue with a fault: its remove does not wait for the lock. If another client has it, the remove
 * says that the queue is empty, whatever is in it. No value is lost, and all come out in order.
 */

#include <sched.h>

#include "locked_array.h"

static int take_unless_busy(void *queue, uint32_t *value)
{
    struct array *array = queue;
    if (pthread_mutex_trylock(&array->lock) != 0)
        return 0;
    sched_yield();  /* lets the fault show sooner, and is no part of it */
    int found = take_front(array, value);
    pthread_mutex_unlock(&array->lock);
    return found;
}

QUEUE_KIND(busy_is_empty) = {"first in, first out; has a fault on purpose",
                             make, destroy, NULL, NULL, add, take_unless_busy};
