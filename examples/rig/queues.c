#include "queues.h"

#include <stddef.h>
#include <string.h>

/* queues.def, which the Makefile writes, names each queue as QUEUE(NAME). */
#define QUEUE(name) extern const struct queue_kind queue_##name;
#include "queues.def"
#undef QUEUE

#define QUEUE(name) {#name, &queue_##name},
const struct queue queues[] = {
#include "queues.def"
    {NULL, NULL},
};
#undef QUEUE

const struct queue *find_queue(const char *name)
{
    for (const struct queue *queue = queues; queue->name != NULL; queue++)
        if (strcmp(queue->name, name) == 0)
            return queue;
    return NULL;
}
