/* Threads are bound to processors in GNU's way. */
#define _GNU_SOURCE

#include "processors.h"

#include <errno.h>
#include <sched.h>

/* The processor of a client: those that the rig may use go round. Answers 0, or the fault. */
static int choose_processor(unsigned client, cpu_set_t *chosen)
{
    cpu_set_t usable;
    if (sched_getaffinity(0, sizeof usable, &usable) != 0)
        return errno;
    unsigned before = client % (unsigned)CPU_COUNT(&usable);
    unsigned processor = 0;
    while (!CPU_ISSET(processor, &usable) || before-- > 0)
        processor++;
    CPU_ZERO(chosen);
    CPU_SET(processor, chosen);
    return 0;
}

int start_client(pthread_t *thread, unsigned client, void *(*work)(void *), void *argument)
{
    pthread_attr_t attributes;
    cpu_set_t processor;
    int fault = choose_processor(client, &processor);
    if (fault == 0)
        fault = pthread_attr_init(&attributes);
    if (fault != 0)
        return fault;
    fault = pthread_attr_setaffinity_np(&attributes, sizeof processor, &processor);
    if (fault == 0)
        fault = pthread_create(thread, &attributes, work, argument);
    pthread_attr_destroy(&attributes);
    return fault;
}
