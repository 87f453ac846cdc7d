/*
 * moodycamel::ConcurrentQueue (Debian package libconcurrentqueue-dev). It keeps a queue inside for
 * each producer, and a consumer takes from any of them.
 */

#include <concurrentqueue/concurrentqueue.h>
#include <new>

#include "queue.h"

namespace {

using Queue = moodycamel::ConcurrentQueue<uint32_t>;

void *make(unsigned values)
{
    try {
        return new Queue(values);
    } catch (const std::bad_alloc &) {
        return nullptr;
    }
}

void destroy(void *queue)
{
    delete static_cast<Queue *>(queue);
}

int add(void *queue, uint32_t value)
{
    return static_cast<Queue *>(queue)->enqueue(value);
}

int take(void *queue, uint32_t *value)
{
    return static_cast<Queue *>(queue)->try_dequeue(*value);
}

}  // namespace

QUEUE_KIND(moodycamel) = {"first in, first out for each producer alone",
                          make, destroy, nullptr, nullptr, add, take};
