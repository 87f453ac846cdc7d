/*
 * The records of a log, read one by one.
 */

#ifndef RECORDS_H
#define RECORDS_H

#include <stdint.h>

#include "round.h"
#include "yauponroof_recorder.h"

/* A record of a log, with the number of the operation that it belongs to. */
struct record {
    enum yr_recorder_kind kind;
    unsigned client, operation;
    uint32_t tick, value;
};

/* Whether records of a kind have a value. */
int has_value(enum yr_recorder_kind kind);

/* Reads the records of a readable log of clients below MAX_CLIENTS; answers how many there are. */
unsigned read_records(const struct log *log, struct record *records);

/* The record that names the value of an operation, or that it found none: the call of an add, the
   return of a remove. The operation is an add, or a remove that has returned. */
const struct record *telling_record(const struct record *records, unsigned operation);

/* The call of the remove that has not returned, of which there is at most one; NULL if all have. */
const struct record *pending_remove(const struct record *records, unsigned count);

#endif /* RECORDS_H */
