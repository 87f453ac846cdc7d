/*
 * The lock-free queue of the Userspace RCU library (Debian package liburcu-dev). The nodes of all
 * values are set apart when the queue is made and freed with it, when no client can read them.
 */

#include <stdatomic.h>
#include <stdlib.h>
#include <urcu/compiler.h>
#include <urcu/urcu-memb.h>
#include <urcu/rculfqueue.h>

#include "queue.h"
#include "trouble.h"

struct node {
    struct cds_lfq_node_rcu link;
    uint32_t value;
};

struct nodes {
    struct cds_lfq_queue_rcu queue;
    atomic_uint used;
    struct node node[];
};

static void *make(unsigned values)
{
    struct nodes *nodes = malloc(sizeof *nodes + values * sizeof *nodes->node);
    if (nodes == NULL)
        return NULL;
    cds_lfq_init_rcu(&nodes->queue, urcu_memb_call_rcu);
    atomic_init(&nodes->used, 0);
    return nodes;
}

static void enter(void *queue)
{
    (void)queue;
    urcu_memb_register_thread();
}

static void leave(void *queue)
{
    (void)queue;
    urcu_memb_unregister_thread();
}

static int add(void *queue, uint32_t value)
{
    struct nodes *nodes = queue;
    struct node *node = &nodes->node[atomic_fetch_add(&nodes->used, 1)];
    cds_lfq_node_init_rcu(&node->link);
    node->value = value;
    urcu_memb_read_lock();
    cds_lfq_enqueue_rcu(&nodes->queue, &node->link);
    urcu_memb_read_unlock();
    return 1;
}

static int take(void *queue, uint32_t *value)
{
    struct nodes *nodes = queue;
    urcu_memb_read_lock();
    struct cds_lfq_node_rcu *link = cds_lfq_dequeue_rcu(&nodes->queue);
    urcu_memb_read_unlock();
    if (link == NULL)
        return 0;
    *value = caa_container_of(link, struct node, link)->value;
    return 1;
}

/* Only an empty queue can be destroyed. The barrier waits, some 10 ms, until all that the queue has
   handed to urcu_memb_call_rcu is freed. */
static void destroy(void *queue)
{
    struct nodes *nodes = queue;
    uint32_t left;
    enter(queue);
    while (take(queue, &left))
        continue;
    leave(queue);
    if (cds_lfq_destroy_rcu(&nodes->queue) != 0) {
        trouble("a queue that was emptied is not empty");
        abort();
    }
    urcu_memb_barrier();
    free(nodes);
}

QUEUE_KIND(rculfqueue) = {"first in, first out", make, destroy, enter, leave, add, take};
