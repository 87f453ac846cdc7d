/*
 * boost::lockfree::queue, after Michael and Scott (Debian package libboost-dev).
 */

#include <boost/lockfree/queue.hpp>
#include <new>

#include "queue.h"

namespace {

using Queue = boost::lockfree::queue<uint32_t>;

/* Nodes for all values are set apart, so that no add has to fetch memory. */
void *make(unsigned values)
{
    try {
        return new Queue(values);
    } catch (const std::bad_alloc &) {
        return nullptr;
    }
}

void destroy(void *queue)
{
    delete static_cast<Queue *>(queue);
}

int add(void *queue, uint32_t value)
{
    return static_cast<Queue *>(queue)->push(value);
}

int take(void *queue, uint32_t *value)
{
    return static_cast<Queue *>(queue)->pop(*value);
}

}  // namespace

QUEUE_KIND(boost) = {"first in, first out", make, destroy, nullptr, nullptr, add, take};
