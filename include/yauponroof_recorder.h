/*
 * yauponroof_recorder.h - writes logs for the judge of yauponroof.h
 *
 * A recorder writes the log of a run into a buffer of the caller's, one record for each call and
 * each return. It knows when the log is full: it takes a call only if there is room for the call,
 * for its return and for the returns of all calls that are still open. So the return of an open call
 * always has room, and no log is left with a remove that cannot return.
 *
 *     static uint8_t log[YR_LOG_MAX], sheet[YR_SHEET_MAX];
 *     yr_recorder recorder;
 *     yr_recorder_begin(&recorder, log, sizeof log);
 *     if (yr_recorder_add_called(&recorder, 1, 0, 7)) {
 *         ... client 1 adds 7 to the queue ...
 *         yr_recorder_add_returned(&recorder, 1, 1);
 *     }
 *     yr_judge(log, yr_recorder_length(&recorder), sheet, sizeof sheet);
 *
 * All functions are static inline, in C99 and in C++11, and use nothing else, so that there is
 * nothing to link for them. examples/rig shows a rig with many clients that uses them.
 *
 * What the buffer holds
 * ---------------------
 * The first yr_recorder_length bytes of the buffer are at any time the log of all records taken so
 * far, with their number in bytes 1 and 2. It can be judged or written away after each record. While
 * one remove is open, it is judged as a log whose consumer was killed, see below; while more than one
 * is, it is refused (10). The bytes behind the log are as they were, and no byte outside the buffer is
 * read or written. The recorder keeps the pointer to the buffer: the buffer has to stay where it is,
 * and the log in it as it is, as long as records are appended.
 *
 * What can go wrong
 * -----------------
 * This header is not proved. What it writes is judged like any other bytes: the answers of the
 * library are right for the log and know nothing of the run behind it. A mistake here or in the
 * caller shows in one of two ways.
 *
 * The log is refused. The recorder does not look at clients, ticks and values. yr_check does, as do
 * yr_judge and all others that take a log, and yr_feed for each record. They refuse a log in which a
 * tick is below the one before it (6), a client calls while its last call is open (7), calls with the
 * tick of its last return (31) or returns what it has not called (8), a value is added a second time
 * (9), or a second remove has not returned (10).
 *
 * Or the verdict is on another history than the one that ran:
 *
 * - A call whose tick was taken after the operation began, or a return whose tick was taken before it
 *   ended, makes the operation look shorter than it was: operations that overlapped it then seem to
 *   come before or after it, and a correct queue may be given a pattern. So take the tick of the call
 *   before the operation begins, and the tick of the return after it has ended. That can only make
 *   the operation look longer: a correct queue still has an order, though a fault may be missed.
 * - An operation that is not recorded changes what the log says of the others. Without its add, a
 *   value that is removed gives pattern 1. Without its remove, a value counts as still there, and a
 *   correct queue may be given pattern 4 or 6. Without both, the faults of a value are missed. So
 *   record every operation, starting from an empty queue, and do not begin one whose call was not
 *   taken.
 *
 * A consumer that was killed
 * --------------------------
 * One remove of a log may be left open: its call is appended and no return, and nothing more of its
 * client. So a rig may kill one consumer in a run, before its remove begins, within it, or after it
 * has ended and before its return is recorded. Nothing has to be called for it. The call still has to
 * be recorded before the remove begins: a remove that took a value and has no record is a fault of the
 * log, as above. The room for the return stays set aside.
 *
 * Nobody knows then whether the remove took a value. A legal order may leave it out or list it once;
 * where it stands it takes the front value if there is one, and otherwise changes nothing. It precedes
 * no operation. The judge first tries it left out, then as the remove of each value that was added and
 * that no other remove returned, lowest add first, and lists the first order that it finds. So a
 * correct queue has an order. If there is none, the sheet has the pattern that is found with the
 * remove left out. yr_excerpt refuses such a log (32), and yr_page shows the remove as R without a
 * value.
 *
 * A second remove without return is refused (10), with the index of its call; if there are more, it is
 * still that of the second. Any number of adds may be open.
 *
 * An open remove can explain one value that is missing, also if the queue has lost it. So it can hide
 * a fault, and where a return is known it should be recorded.
 *
 * Ticks
 * -----
 * An operation precedes another exactly if the tick of its return is lower than the tick of the
 * other's call. The order in which records of one tick are appended tells nothing. So the more
 * records share a tick, the more operations overlap in the log, and the fewer faults show. One tick
 * for all records, such as 0, leaves only patterns 1 and 2 to be found.
 *
 * It is best if no two records share a tick, and a counter that all clients share gives that (see
 * "Several threads"). A single thread that appends the records as they happen can pass the member
 * "records" of the recorder as the tick, which is 0 at first and rises with every record.
 *
 * A clock does as well, also a coarse one, whose ticks many records share, such as one of
 * milliseconds or the number of a batch of events. It has to be one clock for all clients, and must
 * never go back. Then it can hide faults but cannot invent one, if the rig keeps these rules:
 *
 * - The client takes both ticks itself: reads the clock, then begins the operation; ends the
 *   operation, then reads the clock. An atomic_thread_fence(memory_order_seq_cst) belongs between
 *   the reading and the operation, on both sides. Without it the processor may read the clock for
 *   the return before others see what the operation has written.
 * - A recorder that gathers events from one client after the other must not give all that it has
 *   gathered in one go the same tick, unless the clients stand still meanwhile. Say it visits client
 *   1, then client 1 calls an operation, then one of client 2 ends, then it visits client 2. The
 *   call waits for the next visit and gets a higher tick than the return, so the log claims an order
 *   that was not there. Gather the ticks that the clients took.
 * - A tick has 32 bits. Count from the start of the run, in units that are not too small: nanoseconds
 *   start again at 0 after some 4 seconds, and a log that is sorted by such ticks is wrong.
 * - Append the records in the order of their ticks (6), and those of each client in the order in
 *   which they happened (7, 8). A stable sort by tick does both.
 * - A client whose next call would get the tick of its last return waits until the clock shows a
 *   higher one, and takes that (31). Where it cannot wait, take a finer clock, or the counter. Do not
 *   mend the ticks afterwards: a call with a higher tick than it had, or a return with a lower one,
 *   claims an order that may not have been there. A client number of its own for each operation
 *   avoids 31 too; the log then does not tell that the operations of one client followed each other.
 *
 * Several threads
 * ---------------
 * A recorder and its buffer are for one thread at a time. With a lock around the recorder, and ticks
 * that rise with every record, the log would still be right, but the clients would wait for each
 * other between their operations, which hides faults. Rather let each client number its calls and
 * returns from one atomic counter, with sequentially consistent increments (atomic_fetch_add), and
 * keep them to itself; after the run append those of all clients in the order of their numbers, with
 * the numbers as ticks. All ticks are then different, so that 6 and 31 cannot occur. 512 operations
 * that all return always fit into YR_LOG_MAX bytes.
 */

#ifndef YAUPONROOF_RECORDER_H
#define YAUPONROOF_RECORDER_H

#include <stddef.h>
#include <stdint.h>

#include "yauponroof.h"

/* The kinds of record. */
enum yr_recorder_kind {
    YR_RECORDER_ADD_CALLED = 1,
    YR_RECORDER_REMOVE_CALLED = 2,
    YR_RECORDER_ADD_RETURNED = 3,
    YR_RECORDER_REMOVE_RETURNED = 4,  /* with a value */
    YR_RECORDER_REMOVE_EMPTY = 5
};

/* The bytes in front of the records, and those of a record without and with a value. */
enum yr_recorder_size {
    YR_RECORDER_HEADER = 3,
    YR_RECORDER_SHORT = 8,
    YR_RECORDER_LONG = YR_RECORD_MAX
};

/*
 * A recorder. yr_recorder_begin sets the members, whatever they are before. The caller may read them.
 */
typedef struct yr_recorder {
    uint8_t *log;           /* the buffer */
    size_t room;            /* how many bytes it has */
    size_t length;          /* how many of them are the log */
    uint32_t records;       /* how many records the log has */
    uint32_t open_adds;     /* how many calls of add have not returned */
    uint32_t open_removes;  /* how many calls of remove have not returned */
} yr_recorder;

/*
 * Begins the log of no records.
 *
 * In:   r       the recorder, apart from the buffer; never NULL; what it holds before does not matter
 *       buffer  room bytes to write the log to; never NULL; what they hold before does not matter
 *       room    any length; YR_LOG_MAX is enough for every log
 * Out:  1 if the log is begun: the first 3 bytes of the buffer are then 1, 0, 0.
 *       0 if room is below 3: recorder and buffer are then as they were, and the recorder is not to
 *       be used.
 */
static inline int yr_recorder_begin(yr_recorder *r, uint8_t *buffer, size_t room)
{
    if (room < YR_RECORDER_HEADER)
        return 0;
    buffer[0] = 1;
    buffer[1] = 0;
    buffer[2] = 0;
    r->log = buffer;
    r->room = room;
    r->length = YR_RECORDER_HEADER;
    r->records = 0;
    r->open_adds = 0;
    r->open_removes = 0;
    return 1;
}

/* How many bytes of the buffer are the log. */
static inline size_t yr_recorder_length(const yr_recorder *r)
{
    return r->length;
}

/*
 * Whether a call would be taken now, be it of add or of remove: both need two records, 20 bytes
 * in all, for the call and the return. 0 means that the log is full. It then stays so, unless a
 * remove that is open returns empty, which needs 4 bytes less than were kept for it.
 */
static inline int yr_recorder_takes_call(const yr_recorder *r)
{
    uint32_t open = r->open_adds + r->open_removes;
    size_t kept = (size_t)YR_RECORDER_SHORT * r->open_adds +
                  (size_t)YR_RECORDER_LONG * r->open_removes;
    return YR_MAX_RECORDS - r->records - open >= 2 &&
           r->room - r->length - kept >= YR_RECORDER_SHORT + YR_RECORDER_LONG;
}

/* For use in this header: writes a number behind the log, in so many bytes, highest first. */
static inline void yr_recorder_put(yr_recorder *r, uint32_t number, unsigned bytes)
{
    while (bytes-- > 0)
        r->log[r->length++] = (uint8_t)(number >> (8 * bytes));
}

/* For use in this header: appends a record of that size up to its tick, and counts it. */
static inline void yr_recorder_append(yr_recorder *r, enum yr_recorder_size size,
                                      enum yr_recorder_kind kind, uint16_t client, uint32_t tick)
{
    yr_recorder_put(r, (uint32_t)size - 1, 1);
    yr_recorder_put(r, (uint32_t)kind, 1);
    yr_recorder_put(r, client, 2);
    yr_recorder_put(r, tick, 4);
    r->records++;
    r->log[1] = (uint8_t)(r->records >> 8);
    r->log[2] = (uint8_t)r->records;
}

/*
 * The five records. Each function appends one.
 *
 * In:   r       a recorder that was begun; never NULL
 *       client  any number, by which the records of a client are known
 *       tick    any number that is not below the tick of the record before; of a call also not that
 *               of the client's last return. The recorder tests neither: see "What can go wrong"
 *       value   of an add any number that no add before it has; of a remove what it returned
 * Out:  1 if the record was taken: it stands at the end of the log, and the log's count and length
 *       tell of it.
 *       0 if it was not: recorder and buffer are as they were. A call is not taken if
 *       yr_recorder_takes_call says no. A return is not taken if no add is open, or no remove, by
 *       whichever client.
 */
static inline int yr_recorder_add_called(yr_recorder *r, uint16_t client, uint32_t tick,
                                         uint32_t value)
{
    if (!yr_recorder_takes_call(r))
        return 0;
    yr_recorder_append(r, YR_RECORDER_LONG, YR_RECORDER_ADD_CALLED, client, tick);
    yr_recorder_put(r, value, 4);
    r->open_adds++;
    return 1;
}

static inline int yr_recorder_add_returned(yr_recorder *r, uint16_t client, uint32_t tick)
{
    if (r->open_adds == 0)
        return 0;
    yr_recorder_append(r, YR_RECORDER_SHORT, YR_RECORDER_ADD_RETURNED, client, tick);
    r->open_adds--;
    return 1;
}

static inline int yr_recorder_remove_called(yr_recorder *r, uint16_t client, uint32_t tick)
{
    if (!yr_recorder_takes_call(r))
        return 0;
    yr_recorder_append(r, YR_RECORDER_SHORT, YR_RECORDER_REMOVE_CALLED, client, tick);
    r->open_removes++;
    return 1;
}

static inline int yr_recorder_remove_returned(yr_recorder *r, uint16_t client, uint32_t tick,
                                              uint32_t value)
{
    if (r->open_removes == 0)
        return 0;
    yr_recorder_append(r, YR_RECORDER_LONG, YR_RECORDER_REMOVE_RETURNED, client, tick);
    yr_recorder_put(r, value, 4);
    r->open_removes--;
    return 1;
}

static inline int yr_recorder_remove_empty(yr_recorder *r, uint16_t client, uint32_t tick)
{
    if (r->open_removes == 0)
        return 0;
    yr_recorder_append(r, YR_RECORDER_SHORT, YR_RECORDER_REMOVE_EMPTY, client, tick);
    r->open_removes--;
    return 1;
}

#endif /* YAUPONROOF_RECORDER_H */
