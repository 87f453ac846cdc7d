/*
 * Concurrency Kit's ck_fifo_mpmc, after Michael and Scott (Debian package libck-dev). The entries of
 * all values are set apart when the queue is made and none is used twice, so that nothing has to be
 * known of the threads.
 */

#include <ck_fifo.h>
#include <stdatomic.h>
#include <stdlib.h>

#include "queue.h"

struct entries {
    ck_fifo_mpmc_t fifo;
    atomic_uint used;
    ck_fifo_mpmc_entry_t entry[];
};

/* One entry more than there are values stands at the front of the empty queue. */
static void *make(unsigned values)
{
    struct entries *entries = aligned_alloc(
        _Alignof(struct entries), sizeof *entries + (values + 1) * sizeof *entries->entry);
    if (entries == NULL)
        return NULL;
    ck_fifo_mpmc_init(&entries->fifo, &entries->entry[0]);
    atomic_init(&entries->used, 1);
    return entries;
}

static void destroy(void *queue)
{
    free(queue);
}

static int add(void *queue, uint32_t value)
{
    struct entries *entries = queue;
    ck_fifo_mpmc_entry_t *entry = &entries->entry[atomic_fetch_add(&entries->used, 1)];
    ck_fifo_mpmc_enqueue(&entries->fifo, entry, (void *)(uintptr_t)value);
    return 1;
}

static int take(void *queue, uint32_t *value)
{
    struct entries *entries = queue;
    ck_fifo_mpmc_entry_t *garbage;
    void *taken;
    if (!ck_fifo_mpmc_dequeue(&entries->fifo, &taken, &garbage))
        return 0;
    *value = (uint32_t)(uintptr_t)taken;
    return 1;
}

QUEUE_KIND(ck_fifo) = {"first in, first out", make, destroy, NULL, NULL, add, take};
