/*
 * A pipe of the operating system as a queue.
 */

#include <errno.h>
#include <fcntl.h>
#include <stdio.h>
#include <stdlib.h>
#include <unistd.h>

#include "queue.h"

enum { FRONT, BACK };

static void destroy(void *queue)
{
    int *ends = queue;
    close(ends[FRONT]);
    close(ends[BACK]);
    free(ends);
}

static void *make(unsigned values)
{
    int *ends = malloc(2 * sizeof *ends);
    (void)values;
    if (ends == NULL || pipe(ends) != 0) {
        free(ends);
        return NULL;
    }
    if (fcntl(ends[FRONT], F_SETFL, O_NONBLOCK) != 0) {
        destroy(ends);
        return NULL;
    }
    return ends;
}

static int add(void *queue, uint32_t value)
{
    int *ends = queue;
    return write(ends[BACK], &value, sizeof value) == sizeof value;
}

static int take(void *queue, uint32_t *value)
{
    int *ends = queue;
    ssize_t length;
    do
        length = read(ends[FRONT], value, sizeof *value);
    while (length < 0 && errno == EINTR);
    if (length == sizeof *value)
        return 1;
    if (length < 0 && errno == EAGAIN)
        return 0;
    perror("the pipe is neither read nor empty");
    abort();
}

QUEUE_KIND(pipe) = {"first in, first out", make, destroy, NULL, NULL, add, take};
