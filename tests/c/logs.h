/*
 * Logs for the C tests and the measurements. A log is written record by record into a struct log;
 * the ticks rise by one, unless they are then joined. Beside the logs of a correct queue stands an
 * order that is legal for them; beside those with a pattern stands the sheet of no operations.
 */

#ifndef LOGS_H
#define LOGS_H

#include <stddef.h>
#include <stdint.h>
#include <string.h>

#include "sheets.h"
#include "yauponroof.h"

enum kind { CALL_ADD = 1, CALL_REMOVE, RETURN_ADD, RETURN_VALUE, RETURN_EMPTY };

/* Document 01's second run: client 1 adds 7 and removes it, at ticks 1 to 4. */
static const uint8_t second_run[] = {
    1, 0, 4,
    11, 1, 0, 1, 0, 0, 0, 1, 0, 0, 0, 7,
    7, 3, 0, 1, 0, 0, 0, 2,
    7, 2, 0, 1, 0, 0, 0, 3,
    11, 4, 0, 1, 0, 0, 0, 4, 0, 0, 0, 7,
};

/* The bytes of a log with room for records that are too many. */
struct log {
    uint8_t bytes[YR_LOG_MAX + 64];
    size_t length;
    unsigned records;
};

static inline void log_byte(struct log *log, unsigned byte)
{
    log->bytes[log->length++] = (uint8_t)byte;
}

static inline void log_set_n(struct log *log, unsigned n)
{
    log->bytes[1] = (uint8_t)(n >> 8);
    log->bytes[2] = (uint8_t)n;
}

/* Begins a log of no records. */
static inline void log_begin(struct log *log)
{
    memset(log, 0, sizeof *log);
    log->bytes[0] = 1;
    log->length = 3;
}

static inline void log_u32(struct log *log, uint32_t number)
{
    log_byte(log, number >> 24);
    log_byte(log, number >> 16);
    log_byte(log, number >> 8);
    log_byte(log, number);
}

/* Appends a record and counts it; `value` matters for the two kinds that carry one. */
static inline void log_record(struct log *log, enum kind kind, unsigned client, uint32_t value)
{
    int carries = kind == CALL_ADD || kind == RETURN_VALUE;
    log_byte(log, carries ? 11 : 7);
    log_byte(log, kind);
    log_byte(log, client >> 8);
    log_byte(log, client);
    log_u32(log, log->records);
    if (carries)
        log_u32(log, value);
    log->records++;
    log_set_n(log, log->records);
}

/* Where record i of the log begins; behind the last record, where that ends. */
static inline size_t log_start(const struct log *log, unsigned i)
{
    size_t start = 3;
    while (i-- > 0)
        start += 1u + log->bytes[start];
    return start;
}

/* Gives record i the tick of the record before it. */
static inline void log_join(struct log *log, unsigned i)
{
    enum { TICK = 4 };
    memcpy(log->bytes + log_start(log, i) + TICK, log->bytes + log_start(log, i - 1) + TICK, 4);
}

/* Gives all records the tick of the first. */
static inline void log_join_all(struct log *log)
{
    for (unsigned i = 1; i < log->records; i++)
        log_join(log, i);
}

/* Takes back the last record. */
static inline void log_drop_last(struct log *log)
{
    log->length = log_start(log, log->records - 1);
    log->records--;
    log_set_n(log, log->records);
}

/* n adds that never return, a client each. */
static inline void log_pending_adds(struct log *log, unsigned n)
{
    log_begin(log);
    for (unsigned i = 0; i < n; i++)
        log_record(log, CALL_ADD, i, i);
}

/* The slot of a key (a value or a client), by the formula of the library's map
   (crates/map/src/map.rt). Keys that share one of the 512 slots are searched one after the other. */
static inline unsigned slot_of(uint32_t key)
{
    return (unsigned)((uint64_t)key * 2654435761u / 8388608 % 512);
}

/* The least value above this one that is in its slot as well. */
static inline uint32_t next_of_slot(uint32_t value)
{
    uint32_t next = value + 1;
    while (slot_of(next) != slot_of(value))
        next++;
    return next;
}

/* n adds that never return, a client each, of values that share a slot. */
static inline void log_pending_adds_of_slot(struct log *log, unsigned n)
{
    uint32_t value = 0;
    log_begin(log);
    for (unsigned i = 0; i < n; i++) {
        log_record(log, CALL_ADD, i, value);
        value = next_of_slot(value);
    }
}

/* Writes logs that are not readable, one after the other, and calls `expect` for each with its
   refusal, the index and what is wrong with it. */
static inline void log_each_refused(struct log *log,
                                    void (*expect)(uint32_t, uint32_t, const char *))
{
    log_begin(log);
    log_record(log, CALL_REMOVE, 2, 0);
    log_record(log, CALL_ADD, 1, 7);
    log_record(log, CALL_REMOVE, 3, 0);
    expect(YR_REFUSAL_PENDING_REMOVE, 2, "a second remove without return");
    log_record(log, RETURN_ADD, 2, 0);
    expect(YR_REFUSAL_RETURN, 3, "a remove returns as an add");
    log_begin(log);
    log_record(log, CALL_ADD, 1, 7);
    log_record(log, RETURN_ADD, 1, 0);
    log_record(log, CALL_REMOVE, 1, 0);
    log_join(log, 2);
    expect(YR_REFUSAL_TICK_REPEATED, 2, "client 1 calls at the tick of its return");
    log_pending_adds(log, YR_MAX_RECORDS + 1);
    expect(YR_REFUSAL_RECORDS, 0, "1,025 adds");
}

/* 512 calls, alternately add and remove, then their 512 returns, by these clients. In the order all
   adds come before the removes of their values. */
static inline void log_calls_then_returns_by(struct log *log, struct sheet *order,
                                             const unsigned clients[512])
{
    log_begin(log);
    for (unsigned i = 0; i < 512; i++)
        log_record(log, i % 2 == 0 ? CALL_ADD : CALL_REMOVE, clients[i], i);
    for (unsigned i = 0; i < 512; i++)
        log_record(log, i % 2 == 0 ? RETURN_ADD : RETURN_VALUE, clients[i], i - 1);
    sheet_begin(order);
    for (unsigned i = 0; i < 512; i++)
        sheet_list(order, i < 256 ? 2 * i : 2 * (i - 256) + 1);
}

/* The clients are 0 to 511. */
static inline void log_calls_then_returns(struct log *log, struct sheet *order)
{
    unsigned clients[512];
    for (unsigned i = 0; i < 512; i++)
        clients[i] = i;
    log_calls_then_returns_by(log, order, clients);
}

/* The same with all records of one tick. */
static inline void log_one_tick(struct log *log, struct sheet *order)
{
    log_calls_then_returns(log, order);
    log_join_all(log);
}

/* The clients share 4 slots of the map: all of the slots 0 to 2, and all but one of
   slot 3. */
static inline void log_calls_then_returns_of_slots(struct log *log, struct sheet *order)
{
    unsigned clients[512];
    unsigned n = 0;
    for (unsigned slot = 0; n < 512; slot++)
        for (uint32_t client = 0; client <= UINT16_MAX && n < 512; client++)
            if (slot_of(client) == slot)
                clients[n++] = client;
    log_calls_then_returns_by(log, order, clients);
}

/* 256 calls of remove, 256 of add, then the returns of the adds and those of the removes, a client
   each, so that all operations overlap. The first remove takes the last value, the second the last
   but one, and so on. A search from the lowest operation on then passes all removes before it comes
   to an add, and among the removes that wait the one of the front value is the last. */
static inline void log_values_reversed(struct log *log, struct sheet *order)
{
    log_begin(log);
    for (unsigned i = 0; i < 256; i++)
        log_record(log, CALL_REMOVE, i, 0);
    for (unsigned i = 0; i < 256; i++)
        log_record(log, CALL_ADD, 256 + i, i);
    for (unsigned i = 0; i < 256; i++)
        log_record(log, RETURN_ADD, 256 + i, 0);
    for (unsigned i = 0; i < 256; i++)
        log_record(log, RETURN_VALUE, i, 255 - i);
    sheet_begin(order);
    for (unsigned i = 0; i < 512; i++)
        sheet_list(order, i < 256 ? 256 + i : 511 - i);
}

/* 341 calls of add and 341 of remove, in turns, a client each. The adds never return, so that all
   operations overlap. The removes return from the last to the first, and take the values from the
   first to the last. */
static inline void log_pending_pairs(struct log *log, struct sheet *order)
{
    log_begin(log);
    for (unsigned i = 0; i < 682; i++)
        log_record(log, i % 2 == 0 ? CALL_ADD : CALL_REMOVE, i, i / 2);
    for (unsigned value = 0; value < 341; value++)
        log_record(log, RETURN_VALUE, 681 - 2 * value, value);
    sheet_begin(order);
    for (unsigned i = 0; i < 682; i++)
        sheet_list(order, i < 341 ? 2 * i : 681 - 2 * (i - 341));
}

/* 256 adds, then 256 removes, one after the other by one client, of values that share a slot of the
   map. */
static inline void log_values_of_slot(struct log *log, struct sheet *order)
{
    uint32_t value = 0;
    log_begin(log);
    for (unsigned i = 0; i < 512; i++) {
        if (i == 256)
            value = 0;
        log_record(log, i < 256 ? CALL_ADD : CALL_REMOVE, 0, value);
        log_record(log, i < 256 ? RETURN_ADD : RETURN_VALUE, 0, value);
        value = next_of_slot(value);
    }
    sheet_call_order(order, 512);
}

/* 512 adds, one after the other: one by each of the 64 clients that share a slot of the reader's map
   of clients (crates/map/src/narrow.rt), then all others by the first of them, which that map finds
   last. */
static inline void log_clients_of_slot(struct log *log, struct sheet *order)
{
    enum { SLOTS = 1024, SHARE = 64 };
    log_begin(log);
    for (unsigned i = 0; i < 512; i++) {
        unsigned high = i < SHARE ? i : 0;
        unsigned client = high * SLOTS + (SLOTS - high) % SLOTS;
        log_record(log, CALL_ADD, client, i);
        log_record(log, RETURN_ADD, client, 0);
    }
    sheet_call_order(order, 512);
}

/* Who makes the calls of a simulated run: clients numbered from 0, the same 1,024 apart, or one for
   each operation. */
enum clients { CLIENTS_REUSED, CLIENTS_APART, CLIENT_PER_OPERATION };

/* How many clients are at work at once in a run, and at most. */
#define WORKERS 8
#define MOST_WORKERS 64

/* A client; while it is at work, its operation and the record that returns it. */
struct worker {
    unsigned client;
    int at_work;
    unsigned operation;
    enum kind returns;
    uint32_t value;
};

/* The state of a simulated run; values are numbered in the order of the calls of their adds. */
struct simulation {
    struct log *log;
    struct sheet *order;
    uint32_t random;
    unsigned calls;
    uint32_t adds;
    uint32_t queue[YR_MAX_RECORDS];
    unsigned front, back;
};

static inline unsigned simulation_random(struct simulation *run, unsigned bound)
{
    run->random = run->random * 1664525u + 1013904223u;
    return (run->random >> 16) % bound;
}

/* Lets the worker's operation take effect on the queue, and notes it in the order. */
static inline void simulation_effect(struct simulation *run, struct worker *worker)
{
    if (worker->returns == RETURN_ADD) {
        run->queue[run->back++] = worker->value;
    } else if (run->front < run->back) {
        worker->returns = RETURN_VALUE;
        worker->value = run->queue[run->front++];
    }
    sheet_list(run->order, worker->operation);
}

/* Calls add or remove. An operation of even number takes effect at once. */
static inline void simulation_call(struct simulation *run, struct worker *worker)
{
    int adds = simulation_random(run, 2) == 0;
    worker->at_work = 1;
    worker->operation = run->calls++;
    worker->returns = adds ? RETURN_ADD : RETURN_EMPTY;
    worker->value = adds ? run->adds++ : 0;
    log_record(run->log, adds ? CALL_ADD : CALL_REMOVE, worker->client, worker->value);
    if (worker->operation % 2 == 0)
        simulation_effect(run, worker);
}

/* Returns the operation, which takes effect only now if its number is odd. */
static inline void simulation_return(struct simulation *run, struct worker *worker)
{
    if (worker->operation % 2 == 1)
        simulation_effect(run, worker);
    log_record(run->log, worker->returns, worker->client, worker->value);
    worker->at_work = 0;
}

/* Lets `count` clients make so many records, an even number; every operation returns. */
static inline void simulation_run(struct simulation *run, enum clients clients, unsigned count,
                                  unsigned records)
{
    struct worker workers[MOST_WORKERS];
    memset(workers, 0, sizeof workers);
    for (unsigned i = 0; i < count; i++)
        workers[i].client = clients == CLIENTS_APART ? i * 1024 : i;
    log_begin(run->log);
    sheet_begin(run->order);
    while (run->log->records < records) {
        struct worker *worker = &workers[simulation_random(run, count)];
        if (worker->at_work) {
            simulation_return(run, worker);
        } else if (run->calls < records / 2) {
            if (clients == CLIENT_PER_OPERATION)
                worker->client = run->calls;
            simulation_call(run, worker);
        }
    }
}

/* 1,024 records of a correct queue with so many clients at work. The order is that in which the
   operations take effect. */
static inline void log_simulate_by(struct log *log, struct sheet *order, enum clients clients,
                                   unsigned count)
{
    struct simulation run = {log, order, 1, 0, 0, {0}, 0, 0};
    simulation_run(&run, clients, count, YR_MAX_RECORDS);
}

/* The same with 8 clients at work. */
static inline void log_simulate(struct log *log, struct sheet *order, enum clients clients)
{
    log_simulate_by(log, order, clients, WORKERS);
}

/* The most records of a log that has a page, with 8 clients at work: the last is an add of a ninth
   client that does not return, and the order leaves it out. */
static inline void log_simulate_page(struct log *log, struct sheet *order)
{
    struct simulation run = {log, order, 1, 0, 0, {0}, 0, 0};
    simulation_run(&run, CLIENTS_REUSED, WORKERS, YR_PAGE_RECORDS - 1);
    log_record(log, CALL_ADD, WORKERS, run.adds);
}

/* A run of 8 clients, removes that empty the queue, and then adds and removes of one value each,
   until `free` records of 1,024 are left, an even number. The values are below 1,024, and the
   clients below 8. */
static inline void log_simulate_emptied(struct log *log, struct sheet *order, unsigned free)
{
    struct simulation run = {log, order, 1, 0, 0, {0}, 0, 0};
    simulation_run(&run, CLIENTS_REUSED, WORKERS, YR_MAX_RECORDS - 200);
    while (run.front < run.back) {
        log_record(log, CALL_REMOVE, 0, 0);
        log_record(log, RETURN_VALUE, 0, run.queue[run.front++]);
        sheet_list(order, run.calls++);
    }
    while (log->records + free + 4 <= YR_MAX_RECORDS) {
        log_record(log, CALL_ADD, 0, run.adds);
        log_record(log, RETURN_ADD, 0, 0);
        log_record(log, CALL_REMOVE, 0, 0);
        log_record(log, RETURN_VALUE, 0, run.adds++);
        sheet_list(order, run.calls++);
        sheet_list(order, run.calls++);
    }
    if (log->records + free < YR_MAX_RECORDS) {
        log_record(log, CALL_REMOVE, 0, 0);
        log_record(log, RETURN_EMPTY, 0, 0);
        sheet_list(order, run.calls);
    }
}

/* A whole operation of client 8: its call and its return. */
static inline void log_add(struct log *log, uint32_t value)
{
    log_record(log, CALL_ADD, WORKERS, value);
    log_record(log, RETURN_ADD, WORKERS, 0);
}

static inline void log_remove(struct log *log, uint32_t value)
{
    log_record(log, CALL_REMOVE, WORKERS, 0);
    log_record(log, RETURN_VALUE, WORKERS, value);
}

static inline void log_remove_empty(struct log *log)
{
    log_record(log, CALL_REMOVE, WORKERS, 0);
    log_record(log, RETURN_EMPTY, WORKERS, 0);
}

/* The records of one occurrence of a pattern, 1 to 6, on values from 1,024 on. */
static inline void log_occurrence(struct log *log, unsigned pattern)
{
    const uint32_t a = 1024, b = 1025;
    switch (pattern) {
    case 1:
        log_remove(log, a);
        break;
    case 2:
        log_add(log, a);
        log_remove(log, a);
        log_remove(log, a);
        break;
    case 3:
        log_remove(log, a);
        log_add(log, a);
        break;
    case 4:
        log_add(log, a);
        log_add(log, b);
        log_remove(log, b);
        break;
    case 5:
        log_add(log, a);
        log_add(log, b);
        log_remove(log, b);
        log_remove(log, a);
        break;
    default:
        log_add(log, a);
        log_remove_empty(log);
    }
}

/* 1,024 records that are sound but for a pattern at their very end, which occurs only there. */
static inline void log_late_pattern(struct log *log, struct sheet *order, unsigned pattern)
{
    static const unsigned records[] = {0, 2, 6, 4, 6, 8, 4};
    log_simulate_emptied(log, order, records[pattern]);
    log_occurrence(log, pattern);
    sheet_begin(order);
}

/* When an open remove is called: before the records of a pattern, or after them. */
enum open_remove { OPEN_BEFORE, OPEN_AFTER };

/* The same with a remove of client 9 that never returns, in 1,023 records. If it is called before the
   records of pattern 4 or 6, it takes the first value of these, and the order is legal. */
static inline void log_late_pattern_open(struct log *log, struct sheet *order, unsigned pattern,
                                         enum open_remove called)
{
    static const unsigned records[] = {0, 2, 6, 4, 6, 8, 4};
    log_simulate_emptied(log, order, records[pattern] + 2);
    unsigned open = sheet_k(order->bytes);
    if (called == OPEN_BEFORE)
        log_record(log, CALL_REMOVE, WORKERS + 1, 0);
    log_occurrence(log, pattern);
    if (called == OPEN_AFTER)
        log_record(log, CALL_REMOVE, WORKERS + 1, 0);
    if (called == OPEN_AFTER || (pattern != 4 && pattern != 6)) {
        sheet_begin(order);
        return;
    }
    sheet_list(order, open + 1);
    sheet_list(order, open);
    for (unsigned i = 2; i <= records[pattern] / 2; i++)
        sheet_list(order, open + i);
}

/* What the last of the empty removes of a relay is. */
enum last_empty { LAST_TRUE, LAST_FALSE };

/* A relay: each of the values is added before the one before it is removed, so that all together
   cover the gaps from the return of the first add to the call of the last remove. So many empty
   removes are called behind the first add. They return behind the call of the last remove; but if
   the last of them is false, it returns right before that. */
static inline void log_relay(struct log *log, struct sheet *order, unsigned values,
                             unsigned empties, enum last_empty last)
{
    unsigned true_ones = last == LAST_FALSE ? empties - 1 : empties;
    log_begin(log);
    log_record(log, CALL_ADD, 0, 0);
    log_record(log, RETURN_ADD, 0, 0);
    for (unsigned i = 0; i < empties; i++)
        log_record(log, CALL_REMOVE, 2 + i, 0);
    for (unsigned value = 1; value < values; value++) {
        log_record(log, CALL_ADD, 0, value);
        log_record(log, RETURN_ADD, 0, 0);
        log_record(log, CALL_REMOVE, 1, 0);
        log_record(log, RETURN_VALUE, 1, value - 1);
    }
    if (last == LAST_FALSE)
        log_record(log, RETURN_EMPTY, 2 + true_ones, 0);
    log_record(log, CALL_REMOVE, 1, 0);
    for (unsigned i = 0; i < true_ones; i++)
        log_record(log, RETURN_EMPTY, 2 + i, 0);
    log_record(log, RETURN_VALUE, 1, values - 1);

    sheet_begin(order);
    if (last == LAST_FALSE)
        return;
    sheet_list(order, 0);
    for (unsigned i = 0; i < 2 * values - 1; i++)
        sheet_list(order, 1 + empties + i);
    for (unsigned i = 0; i < empties; i++)
        sheet_list(order, 1 + i);
}

/* The same, but the last remove never returns. It took the last value, and no other fate of it gives
   an order: if it is left out, all empty removes are false. */
static inline void log_relay_open(struct log *log, struct sheet *order, unsigned values,
                                  unsigned empties, enum last_empty last)
{
    log_relay(log, order, values, empties, last);
    log_drop_last(log);
}

#endif /* LOGS_H */
