/*
 * Why the log tells no precedence that was not there
 * --------------------------------------------------
 * All clients take numbers from one counter. A client takes a number before it calls an operation
 * and another after the operation has returned, and the two are the ticks of the call and the return
 * in the log. The true operation lies between them. So if the tick of o's return is lower than the
 * tick of p's call, o had ended when its second number was taken, that was before the first number of
 * p was taken, and p began after that: what precedes in the log has preceded in truth. The order in
 * which a correct queue did the operations is then legal for the log, and the queue is not failed.
 *
 * Each number is taken once, so all ticks are different: the record with index i has tick i, no two
 * events fall into one tick, and a client's call always has a higher tick than its last return, which
 * the judge asks for (refusal 31). A clock in place of the counter would be right as well, but where
 * events share a tick, more operations overlap in the log, and fewer faults are seen.
 *
 * The other way round does not hold. Operations that overlap in the log may have been apart in truth,
 * so that a fault can go unseen in one round and be seen in another.
 *
 * What is still in the queue when the clients have ended is not removed. So the loss of a value shows
 * only if one that was added later came out (pattern 4) or a remove found the queue empty (pattern 6).
 *
 * Numbers are taken with memory_order_seq_cst, which releases and acquires: if the second number of o
 * is below the first number of p, all that o did happens before all that p does, for the compiler and
 * for the processor. With memory_order_relaxed the writes of o could become visible when p is already
 * at work, the two would overlap in truth and not in the log, and a correct queue could be failed.
 * The price is that a fault is not seen that shows only while the writes of an operation are still on
 * their way when it has returned.
 *
 * The clients share nothing else but the queue. Each notes its numbers in its own operations, and the
 * log is written when all have ended.
 *
 * A client that is lost
 * ---------------------
 * One client may be lost in a round. It takes a number before it calls a remove, and no more: it stops
 * before the remove enters the queue or after it has come back, and then leaves the queue as all do.
 * The log has the call of this remove and no return, so the remove precedes nothing. A correct queue
 * still has a legal order: the order in which it did the operations. If the client stopped before the
 * remove, this order leaves the remove out. If it stopped after the remove, this order lists it, and
 * it takes the front value or finds the queue empty, as a remove without return may.
 *
 * No client is stopped inside a remove, so whether a queue bears that is not seen.
 */

#include "round.h"

#include <pthread.h>
#include <sched.h>
#include <stdatomic.h>
#include <string.h>

#include "processors.h"
#include "trouble.h"
#include "yauponroof_recorder.h"

/* An operation as it is planned, and what came of it. */
struct operation {
    int adds;                   /* whether it is an add */
    int yields;                 /* whether the client lets others go first */
    enum stop stop;             /* whether the client is lost at it, and where */
    int done;                   /* whether a value was added or removed */
    uint32_t value;             /* that value */
    unsigned called, returned;  /* the numbers taken before and after it, its ticks; no second one
                                   if the client is lost at it */
};

struct client {
    pthread_t thread;
    unsigned count;
    struct operation operations[MAX_OPERATIONS];
};

/* The round that is run. After trouble with starting clients, some may still wait in it. */
static const struct queue_kind *kind;
static void *queue;
static atomic_uint to_come;
static atomic_uint counter;
static struct client clients[MAX_CLIENTS];
static const struct operation *lost;  /* the remove at which a client is lost; NULL if none is */

/* Waits until all clients have come. They wait awake, since one that has to be woken would find the
   others done. */
static void start_together(void)
{
    atomic_fetch_sub(&to_come, 1);
    while (atomic_load(&to_come) > 0)
        sched_yield();
}

static unsigned take_number(void)
{
    return atomic_fetch_add_explicit(&counter, 1, memory_order_seq_cst);
}

static void operate(struct operation *operation)
{
    operation->called = take_number();
    if (operation->stop == STOP_BEFORE)
        return;
    if (operation->adds)
        operation->done = kind->add(queue, operation->value);
    else
        operation->done = kind->remove(queue, &operation->value);
    if (operation->stop == NO_STOP)
        operation->returned = take_number();
}

/* The thread of a client. */
static void *work(void *argument)
{
    struct client *client = argument;
    if (kind->enter != NULL)
        kind->enter(queue);
    start_together();
    for (unsigned i = 0; i < client->count; i++) {
        if (client->operations[i].yields)
            sched_yield();
        operate(&client->operations[i]);
    }
    if (kind->leave != NULL)
        kind->leave(queue);
    return NULL;
}

/* A random number below the bound. */
static unsigned draw(struct supply *supply, unsigned bound)
{
    supply->random = supply->random * 6364136223846793005u + 1442695040888963407u;
    return (unsigned)(supply->random >> 33) % bound;
}

/* Deals out the operations, adds and removes at random. Now and then a client is to yield first, so
   that clients take turns within a round also where they share a processor. */
static void plan_operations(const struct load *load, struct supply *supply)
{
    for (unsigned c = 0; c < load->clients; c++) {
        struct client *client = &clients[c];
        client->count = (load->operations + c) / load->clients;  /* its share */
        for (unsigned i = 0; i < client->count; i++) {
            struct operation *operation = &client->operations[i];
            operation->adds = draw(supply, 2) == 0;
            operation->yields = draw(supply, 4) == 0;
            operation->value = operation->adds ? supply->value++ : 0;
            operation->stop = NO_STOP;
        }
    }
}

static unsigned count_removes(const struct client *client)
{
    unsigned removes = 0;
    for (unsigned i = 0; i < client->count; i++)
        removes += !client->operations[i].adds;
    return removes;
}

/* Ends the operations of a client with its remove of that number, counted from 0. */
static struct operation *end_with_remove(struct client *client, unsigned number)
{
    unsigned i = 0;
    while (client->operations[i].adds || number-- > 0)
        i++;
    client->count = i + 1;
    return &client->operations[i];
}

/* Chooses the remove at which a client is lost, any of the round, and on which side of it. */
static void plan_loss(const struct load *load, struct supply *supply)
{
    unsigned removes = 0, c = 0;
    for (unsigned i = 0; i < load->clients; i++)
        removes += count_removes(&clients[i]);
    if (removes == 0)
        return;
    unsigned number = draw(supply, removes);
    while (number >= count_removes(&clients[c]))
        number -= count_removes(&clients[c++]);
    struct operation *last = end_with_remove(&clients[c], number);
    last->stop = draw(supply, 2) == 0 ? STOP_BEFORE : STOP_AFTER;
    lost = last;
}

static void plan(const struct load *load, struct supply *supply)
{
    lost = NULL;
    plan_operations(load, supply);
    if (load->loses_client)
        plan_loss(load, supply);
}

/* Starts the clients and waits for them to end. */
static int run_clients(unsigned count)
{
    int fault = 0;
    atomic_store(&to_come, count);
    for (unsigned c = 0; c < count && fault == 0; c++)
        fault = start_client(&clients[c].thread, c, work, &clients[c]);
    if (fault != 0)
        return trouble("the clients were not started: %s", strerror(fault));
    for (unsigned c = 0; c < count; c++)
        pthread_join(clients[c].thread, NULL);
    return 1;
}

/* An operation that is called or returns. */
struct moment {
    unsigned client;
    const struct operation *operation;
};

/* Puts the operations of all clients in the order of their numbers; 0 if an add failed. */
static int put_together(const struct load *load, struct moment *moments)
{
    for (unsigned c = 0; c < load->clients; c++)
        for (unsigned i = 0; i < clients[c].count; i++) {
            const struct operation *operation = &clients[c].operations[i];
            const struct moment moment = {c, operation};
            if (operation->adds && !operation->done)
                return trouble("an add failed");
            moments[operation->called] = moment;
            if (operation->stop == NO_STOP)
                moments[operation->returned] = moment;
        }
    return 1;
}

/* Appends the record of the moment of that number; 0 if the recorder does not take it. */
static int record(yr_recorder *recorder, const struct moment *moment, unsigned number)
{
    const struct operation *operation = moment->operation;
    uint16_t client = (uint16_t)moment->client;
    if (number == operation->called)
        return operation->adds
                   ? yr_recorder_add_called(recorder, client, number, operation->value)
                   : yr_recorder_remove_called(recorder, client, number);
    if (operation->adds)
        return yr_recorder_add_returned(recorder, client, number);
    return operation->done
               ? yr_recorder_remove_returned(recorder, client, number, operation->value)
               : yr_recorder_remove_empty(recorder, client, number);
}

static int write_log(const struct load *load, struct log *log)
{
    struct moment moments[YR_MAX_RECORDS];
    yr_recorder recorder;
    if (!put_together(load, moments))
        return 0;
    yr_recorder_begin(&recorder, log->bytes, sizeof log->bytes);
    unsigned records = atomic_load(&counter);  /* every number that was taken has one */
    for (unsigned number = 0; number < records; number++)
        if (!record(&recorder, &moments[number], number))
            return trouble("the recorder does not take record %u", number);
    log->length = yr_recorder_length(&recorder);
    return 1;
}

static void note_loss(struct loss *loss)
{
    loss->stop = lost == NULL ? NO_STOP : lost->stop;
    loss->found = loss->stop == STOP_AFTER && lost->done;
    loss->value = loss->found ? lost->value : 0;
}

int run_round(const struct queue_kind *of_kind, const struct load *load, struct supply *supply,
              struct log *log, struct loss *loss)
{
    kind = of_kind;
    queue = kind->make(load->operations);
    if (queue == NULL)
        return trouble("the queue was not made");
    atomic_store(&counter, 0);
    plan(load, supply);
    if (!run_clients(load->clients))
        return 0;
    kind->destroy(queue);
    note_loss(loss);
    return write_log(load, log);
}
