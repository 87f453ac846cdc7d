/*
 * oneTBB's concurrent_queue (Debian package libtbb-dev).
 */

#include <new>
#include <oneapi/tbb/concurrent_queue.h>

#include "queue.h"

namespace {

using Queue = oneapi::tbb::concurrent_queue<uint32_t>;

void *make(unsigned)
{
    try {
        return new Queue;
    } catch (const std::bad_alloc &) {
        return nullptr;
    }
}

void destroy(void *queue)
{
    delete static_cast<Queue *>(queue);
}

int add(void *queue, uint32_t value)
{
    try {
        static_cast<Queue *>(queue)->push(value);
        return 1;
    } catch (const std::bad_alloc &) {
        return 0;
    }
}

int take(void *queue, uint32_t *value)
{
    return static_cast<Queue *>(queue)->try_pop(*value);
}

}  // namespace

QUEUE_KIND(tbb) = {"first in, first out from one producer to one consumer",
                   make, destroy, nullptr, nullptr, add, take};
