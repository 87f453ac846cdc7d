/*
 * A queue with a fault: it has two lanes, so that adds seldom wait for each other, and its removes
 * serve the lanes in turn, so that none starves. A client always adds to the same lane, and its values
 * come out in order; but those of one lane overtake older ones of the other. A remove holds the locks
 * of both lanes, so that it finds the queue empty only if it is.
 */

#include <stdatomic.h>

#include "locked_array.h"

#define LANES 2

struct lanes {
    atomic_uint clients;        /* how many have entered */
    unsigned turn;              /* the lane that is served next */
    struct array *lane[LANES];
};

/* The lane to which this client adds. */
static _Thread_local unsigned own_lane;

static void destroy_lanes(void *queue)
{
    struct lanes *lanes = queue;
    for (unsigned i = 0; i < LANES && lanes->lane[i] != NULL; i++)
        destroy(lanes->lane[i]);
    free(lanes);
}

static void *make_lanes(unsigned values)
{
    struct lanes *lanes = calloc(1, sizeof *lanes);
    if (lanes == NULL)
        return NULL;
    atomic_init(&lanes->clients, 0);
    for (unsigned i = 0; i < LANES; i++) {
        lanes->lane[i] = make(values);
        if (lanes->lane[i] == NULL) {
            destroy_lanes(lanes);
            return NULL;
        }
    }
    return lanes;
}

static void choose_lane(void *queue)
{
    struct lanes *lanes = queue;
    own_lane = atomic_fetch_add(&lanes->clients, 1) % LANES;
}

static int add_to_lane(void *queue, uint32_t value)
{
    struct lanes *lanes = queue;
    return add(lanes->lane[own_lane], value);
}

static int take_in_turn(void *queue, uint32_t *value)
{
    struct lanes *lanes = queue;
    int found = 0;
    for (unsigned i = 0; i < LANES; i++)
        pthread_mutex_lock(&lanes->lane[i]->lock);
    for (unsigned i = 0; i < LANES && !found; i++) {
        found = take_front(lanes->lane[lanes->turn], value);
        lanes->turn = (lanes->turn + 1) % LANES;
    }
    for (unsigned i = 0; i < LANES; i++)
        pthread_mutex_unlock(&lanes->lane[i]->lock);
    return found;
}

QUEUE_KIND(fair_lanes) = {"first in, first out; has a fault on purpose",
                          make_lanes, destroy_lanes, choose_lane, NULL, add_to_lane, take_in_turn};
