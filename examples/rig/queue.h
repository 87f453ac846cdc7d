/*
 * What the rig has to know of a queue. A file queues/NAME.c or queues/NAME.cc makes the queue NAME:
 * it defines QUEUE_KIND(NAME).
 */

#ifndef QUEUE_H
#define QUEUE_H

#include <stdint.h>

struct queue_kind {
    /* What the queue promises, in a few words that are printed. */
    const char *promise;

    /* Makes an empty queue, to which at most so many values will be added; NULL if that fails. */
    void *(*make)(unsigned values);

    /* Frees a queue, also one that is not empty. All clients have left it. */
    void (*destroy)(void *queue);

    /* Called in the thread of each client before its first operation and after its last; NULL if
       the queue need not know its threads. */
    void (*enter)(void *queue);
    void (*leave)(void *queue);

    /* Adds a value; 0 if that fails, which ends the run. */
    int (*add)(void *queue, uint32_t value);

    /* Removes a value; 0 if the queue is empty, and only then: a queue that fails otherwise says so
       and aborts. Does not wait for a value to come. */
    int (*remove)(void *queue, uint32_t *value);
};

/* The head of the definition of a queue: QUEUE_KIND(NAME) = {...}; in C or in C++. */
#ifdef __cplusplus
#define QUEUE_LINKAGE extern "C"
#else
#define QUEUE_LINKAGE extern
#endif
#define QUEUE_KIND(name)                                \
    QUEUE_LINKAGE const struct queue_kind queue_##name; \
    const struct queue_kind queue_##name

#endif /* QUEUE_H */
