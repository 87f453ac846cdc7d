/*
 * An array behind a lock, which is a correct queue, and what others here are made from. Each value
 * that is ever added has its own place.
 */

#ifndef LOCKED_ARRAY_H
#define LOCKED_ARRAY_H

#include <pthread.h>
#include <stdlib.h>

#include "queue.h"

struct array {
    pthread_mutex_t lock;
    unsigned front, back;
    uint32_t values[];
};

static inline void *make(unsigned values)
{
    struct array *array = malloc(sizeof *array + values * sizeof *array->values);
    if (array == NULL)
        return NULL;
    pthread_mutex_init(&array->lock, NULL);
    array->front = 0;
    array->back = 0;
    return array;
}

static inline void destroy(void *queue)
{
    struct array *array = queue;
    pthread_mutex_destroy(&array->lock);
    free(array);
}

static inline int add(void *queue, uint32_t value)
{
    struct array *array = queue;
    pthread_mutex_lock(&array->lock);
    array->values[array->back++] = value;
    pthread_mutex_unlock(&array->lock);
    return 1;
}

/* Removes the front for a caller that has the lock; 0 if the array is empty. */
static inline int take_front(struct array *array, uint32_t *value)
{
    int found = array->front < array->back;
    if (found)
        *value = array->values[array->front++];
    return found;
}

static inline int take(void *queue, uint32_t *value)
{
    struct array *array = queue;
    pthread_mutex_lock(&array->lock);
    int found = take_front(array, value);
    pthread_mutex_unlock(&array->lock);
    return found;
}

#endif /* LOCKED_ARRAY_H */
