/*
 * The SegmentedQueue of libcds, after Afek, Korland and Yanovsky (Debian package libcds-dev). It is
 * a list of segments, and the values of one segment are in no order.
 */

#include <cds/container/segmented_queue.h>
#include <cds/gc/hp.h>
#include <cds/init.h>
#include <new>

#include "queue.h"

namespace {

/* How many values a segment has. */
constexpr size_t QUASI_FACTOR = 4;

using Queue = cds::container::SegmentedQueue<cds::gc::HP, uint32_t>;

struct Library {
    Library() { cds::Initialize(); }
    ~Library() { cds::Terminate(); }
};

/* Sets up the library and its reclamation of memory when the first queue is made. They are taken down
   when the program ends. */
void set_up()
{
    static Library library;
    static cds::gc::HP collector;
}

void *make(unsigned)
{
    try {
        set_up();
        return new Queue(QUASI_FACTOR);
    } catch (const std::bad_alloc &) {
        return nullptr;
    }
}

void enter(void *)
{
    cds::threading::Manager::attachThread();
}

void leave(void *)
{
    cds::threading::Manager::detachThread();
}

void destroy(void *queue)
{
    enter(queue);
    delete static_cast<Queue *>(queue);
    leave(queue);
}

int add(void *queue, uint32_t value)
{
    try {
        return static_cast<Queue *>(queue)->enqueue(value);
    } catch (const std::bad_alloc &) {
        return 0;
    }
}

int take(void *queue, uint32_t *value)
{
    return static_cast<Queue *>(queue)->dequeue(*value);
}

}  // namespace

QUEUE_KIND(segmented) = {"first in, first out, but not within a segment of 4",
                         make, destroy, enter, leave, add, take};
