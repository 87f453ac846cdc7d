/*
 * A round: clients drive a fresh queue together, and the log of what they did is written.
 */

#ifndef ROUND_H
#define ROUND_H

#include <stddef.h>
#include <stdint.h>

#include "queue.h"
#include "yauponroof.h"

/* The most clients, and the most operations of a round: each takes two records. */
#define MAX_CLIENTS 64
#define MAX_OPERATIONS (YR_MAX_RECORDS / 2)

/* How many clients there are, how many operations they make together, and whether one of them is lost
   at a remove. That one makes no operation after it. */
struct load {
    unsigned clients;
    unsigned operations;
    int loses_client;
};

struct log {
    uint8_t bytes[YR_LOG_MAX];
    size_t length;
};

/* Where the client that is lost stops: before its remove enters the queue or after it has come back,
   never inside. STOPS is how many answers there are. */
enum stop { NO_STOP, STOP_BEFORE, STOP_AFTER, STOPS };

/* How a client was lost in a round, or that none was. The log does not tell that: it has the call of
   the remove and no return. */
struct loss {
    enum stop stop;
    int found;       /* whether the remove took a value */
    uint32_t value;  /* that value */
};

/* What is used up from round to round. */
struct supply {
    uint64_t random;  /* the state of the random numbers */
    uint32_t value;   /* the value that is added next, so that none is added twice */
};

/* Runs a round and writes its log, in which record i has tick i, and how a client was lost: none is if
   the load does not ask for it, or the round has no remove. 0 if there was trouble, which is said. The
   program has to end then, since clients may still be waiting for others. */
int run_round(const struct queue_kind *kind, const struct load *load, struct supply *supply,
              struct log *log, struct loss *loss);

#endif /* ROUND_H */
