/*
 * The processors of the machine, shared out among the clients.
 */

#ifndef PROCESSORS_H
#define PROCESSORS_H

#include <pthread.h>

/* Starts the thread of a client on a processor of its own, as far as there are enough; answers 0, or
   the fault as pthread_create does. Left to itself the system runs the clients of a short round on
   one processor, one after the other, and their operations hardly overlap. */
int start_client(pthread_t *thread, unsigned client, void *(*work)(void *), void *argument);

#endif /* PROCESSORS_H */
