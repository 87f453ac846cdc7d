/*
 * A queue with a fault: its steps are locked one by one, but its remove takes two of them, a look at
 * the front and the step past it. Between the two another client can see the same front, so that
 * both return one value and the next value is lost.
 */

#include <sched.h>

#include "locked_array.h"

/* The value at the front, which stays there; 0 if the queue is empty. */
static int look(struct array *array, uint32_t *value)
{
    pthread_mutex_lock(&array->lock);
    int found = array->front < array->back;
    if (found)
        *value = array->values[array->front];
    pthread_mutex_unlock(&array->lock);
    return found;
}

static int look_and_take(void *queue, uint32_t *value)
{
    uint32_t passed;
    if (!look(queue, value))
        return 0;
    sched_yield();  /* lets the fault show sooner, and is no part of it */
    take(queue, &passed);
    return 1;
}

QUEUE_KIND(torn_remove) = {"first in, first out; has a fault on purpose",
                           make, destroy, NULL, NULL, add, look_and_take};
