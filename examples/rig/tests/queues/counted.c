/*
 * A correct queue that counts the clients in it, and aborts if it is destroyed before all have left.
 */

#include <stdatomic.h>

#include "queues/locked_array.h"
#include "trouble.h"

static atomic_int clients;

static void enter(void *queue)
{
    (void)queue;
    atomic_fetch_add(&clients, 1);
}

static void leave(void *queue)
{
    (void)queue;
    atomic_fetch_sub(&clients, 1);
}

static void destroy_left(void *queue)
{
    if (atomic_load(&clients) != 0) {
        trouble("a client has not left the queue");
        abort();
    }
    destroy(queue);
}

QUEUE_KIND(counted) = {"first in, first out", make, destroy_left, enter, leave, add, take};
