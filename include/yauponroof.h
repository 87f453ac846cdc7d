/*
 * yauponroof.h - a judge for logs of queue operations, version 0.8.0
 *
 * A log tells the calls and the returns of operations on one queue, made by any number of clients.
 * yr_check says whether the log is readable and how many operations it has, or which record is at
 * fault and why. yr_judge writes a sheet that tells the verdict on the log with its grounds: a legal
 * order of the operations, in which one queue that did them, each between its call and its return,
 * would have answered as the log tells; or a numbered pattern that rules every order out. yr_replay
 * says whether the order on a sheet is legal for a log, whoever made it. yr_excerpt writes the part
 * of a log that shows its pattern, and yr_narrow the part that is about some values. yr_page draws a
 * short log as lines of text, for people to look at. A session takes the records of a log one at a
 * time, and closing it writes the sheet of the whole log.
 *
 * Link with libyauponroof.a (Linux on x86-64), which needs memset of the C library and nothing else.
 * What the functions declared here answer is proved. This header is not: it is held against the
 * library by tests alone.
 *
 * The log
 * -------
 * Multi-byte fields are big-endian and unsigned. Byte 0 is the version, 1. Bytes 1 and 2 are n, the
 * number of records, at most YR_MAX_RECORDS. Then come n records with nothing behind them. Each is
 * one length byte L, then L bytes: the kind (1 byte), the client (2), the tick (4) and, for kinds 1
 * and 4, a value (4).
 *
 *     kind  event                             L
 *        1  call of add, with its value      11
 *        2  call of remove                    7
 *        3  return of add                     7
 *        4  return of remove, with a value   11
 *        5  return of remove, empty           7
 *
 * Every client number, tick and value that fits its field is allowed. Value 0 is a value and does
 * not mean "empty". Records are counted from 0. Each call record begins an operation, and operations
 * are numbered from 0 in the order of their call records, whatever their ticks. Any number of adds
 * may lack their return, and one remove may. An operation without return is called open. A second
 * open remove is refused (10).
 *
 * Ticks
 * -----
 * Ticks alone say what came first. An operation precedes another exactly if the tick of its return
 * is lower than the tick of the other's call; two operations overlap if neither precedes the other.
 * An open operation precedes nothing. Within one tick the order of the records of different clients
 * is chance and tells nothing about time; those of one client stand in their order. If all ticks of
 * a log are different, the order of its records is the order of the events.
 *
 * Ticks may stay equal from one record to the next and may not fall (6). A client's call needs a
 * higher tick than that client's last return (31). An operation may begin and end within one tick.
 *
 * A rig takes the tick of a call no later than the moment at which the operation begins, and the
 * tick of its return no earlier than the moment at which it has ended, from one clock that all
 * clients share and that never goes back. Then every precedence in the log is real. A coarse clock,
 * whose ticks many events share, loses precedences that were there. That can hide a fault but cannot
 * invent one. yauponroof_recorder.h says how to take ticks.
 *
 * Up to version 0.6.0 the order of the records decided, and the only rule for ticks was that they do
 * not fall. A log whose ticks are all different is judged as it was then. A log with one tick
 * throughout, such as 0, now says that all operations overlap, and the second call of a client is
 * refused in it (31).
 *
 * The sheet
 * ---------
 * A sheet tells the verdict on a log. Its fields are big-endian and unsigned as well. Byte 0 is the
 * version, 1. Byte 1 is the verdict: 0 for an order, or else the number of a pattern that rules
 * every order out. Bytes 2 and 3 are k. Then come k operation numbers of 2 bytes each with nothing
 * behind them, so that a sheet has 4 + 2k bytes. With verdict 0 they are the order, first to last;
 * with a pattern they are the operations that it lists.
 *
 * Legal orders
 * ------------
 * An order is legal for a log if
 *
 * - it lists every operation that has returned exactly once, each open add at most once, the open
 *   remove, if there is one, at most once, and no other number;
 * - no operation comes before one that precedes it (see "Ticks");
 * - done in that order on a queue that is empty at the start, each add puts its value at the back,
 *   each remove that returned a value takes that value from the front, each remove that returned
 *   empty meets an empty queue, and the open remove takes the front value if there is one and
 *   otherwise changes nothing.
 *
 * The open remove
 * ---------------
 * A rig may kill one consumer in a run. The log then has the call of its remove and no return, and
 * does not tell whether this remove took a value. So both are tried. The judge first leaves it out.
 * If there is no legal order then, it tries it as the remove of each value that was added and that
 * no remove returned, lowest add first, and lists the first order that it finds. If none of them
 * gives an order, it reports the pattern that is found with the remove left out.
 *
 * - A sheet with an order lists the open remove only if no legal order leaves it out. Where it
 *   stands it takes the front value, and every legal order has it take this value.
 * - If the sheet leaves it out, it does not tell whether the remove took a value. It may have taken
 *   one of those that no remove returned.
 * - A pattern never lists it. No order exists, whatever the remove did, but the pattern may list
 *   the add of a value that the remove took.
 * - A log with an open remove has no excerpt (32), so all that is made for keeping is the sheet.
 *   Keep the log as well.
 * - yr_narrow drops the open remove, so a narrowed log may have a pattern where the log has an
 *   order.
 *
 * Up to version 0.7.0 every log with an open remove was refused with 10.
 *
 * The patterns
 * ------------
 * A readable log without an open remove has a legal order exactly if none of these occurs. With an
 * open remove it has one exactly if none occurs with the remove left out, or none would occur if the
 * remove had returned, after the last record, one of the values that were added and that no remove
 * returned. The open remove itself is in no pattern: "a remove", and "was removed", below mean
 * removes that have returned. "Precedes" goes by ticks, as above.
 *
 *     1  unknown      a remove returned a value that no add of the log names, returned or not;
 *                     lists the remove
 *     2  twice        two removes returned one value; lists both, lower number first
 *     3  early        a remove that returned a value precedes the add of that value; lists the
 *                     remove, the add
 *     4  stuck        add a precedes add b, the value of b was removed and that of a never was;
 *                     lists add a, add b, the remove of b
 *     5  overtaken    add a precedes add b, and the remove of b precedes the remove of a; lists
 *                     add a, add b, the remove of b, the remove of a
 *     6  false empty  every gap of a remove that returned empty is covered; lists the remove, then
 *                     the adds of a chain
 *
 * For the gaps, records are taken by tick, within a tick the calls before the returns, and otherwise
 * as they stand in the log. A gap lies between two neighbours in this sequence. The gaps of a remove
 * run from its call to its return; there is at least one, even if both have the same tick. A value
 * covers the gaps from the return of its add to the call of its remove, or to the end if it was
 * never removed; the value of an open add covers none. The chain begins with the value that reaches
 * furthest of those that cover the first gap, and goes on in the same way at the first gap beyond
 * it, until all gaps of the remove are covered. The later the call of its remove stands in the
 * sequence, the further a value reaches. A value that was never removed reaches furthest, and among
 * several of these the lowest add is taken.
 *
 * The lowest number that occurs is reported. If it occurs more than once, the lowest list is
 * reported, compared left to right.
 *
 * The order of records within a tick does not change the verdict: if two neighbouring records of one
 * tick and of different clients trade places, even a call with a return, byte 1 of the sheet stays
 * as it is. Operation numbers and the list may change.
 *
 * The page
 * --------
 * A readable log of at most YR_PAGE_RECORDS records has a page, which shows the run to people, in
 * ASCII. It has one line for each operation, in the order of their numbers, and each line has 80
 * characters and a line feed:
 *
 *     1 to 4    the number of the operation, right-aligned
 *     5         a space
 *     6 to 16   left-aligned: A for an add or R for a remove, and the value in decimal without
 *               leading zeros; or E alone for a remove that returned empty; or R alone for the
 *               open remove
 *     17        a space
 *     18 to 80  one character for each record, in the order of the log: # from the call of the
 *               operation to its return, both included, or to the last record if it has not
 *               returned; a dot for any other record; spaces after the last record
 *
 * Columns follow the records as they stand in the log, not the ticks. Two operations that have a
 * column in common overlap. Two that have none overlap as well if the return of one and the call of
 * the other have the same tick.
 *
 * The page of the log of no records is empty. An excerpt is a log of its own: its page has the
 * operation numbers of the excerpt, which are those on the excerpt's own sheet.
 *
 * Sessions
 * --------
 * A session is a yr_session, which carries its stage, open or closed, and the number of bytes used,
 * together with a buffer that is lent to every call and whose used bytes are always the log fed so
 * far. If a log is readable, or is so but for 10, and the buffers are long enough, feeding its
 * records and closing answers as yr_judge does on the log and writes the same bytes. What yr_sheet
 * and yr_session_excerpt write for a closed session is what yr_judge and yr_excerpt write for its
 * log.
 *
 * A session fits its buffer if the stage is YR_OPEN or YR_CLOSED, no more bytes are used than the
 * buffer has, and these are a readable log, or in an open session are so but for 10. All session
 * functions but yr_begin test that at every call and so read the whole log held: a feed takes about
 * as long as yr_check on it. The buffer may be lent with another length at each call, and may even be another
 * one, as long as it begins with the used bytes.
 *
 * Rules for every function
 * ------------------------
 * - Pointers must not be NULL, not even with length 0.
 * - No function reads or writes outside the bytes that are lent to it. An output buffer overlaps no
 *   input, and a session overlaps no buffer.
 * - No function uses the heap or a global variable, or keeps a pointer it was given. Any number of
 *   threads may call at the same time, also on the same bytes, as long as none of them writes to
 *   these.
 * - yr_begin, yr_feed and yr_close write to the session at every call. A refused call stores the
 *   values that were there. So while one of these calls runs, no other thread may use the session,
 *   not even by yr_sheet or yr_session_excerpt, and a session cannot lie on a read-only page.
 */

#ifndef YAUPONROOF_H
#define YAUPONROOF_H

#include <stddef.h>
#include <stdint.h>

#ifdef __cplusplus
extern "C" {
#endif

#define YR_VERSION "0.8.0"
#define YR_VERSION_MAJOR 0
#define YR_VERSION_MINOR 8
#define YR_VERSION_PATCH 0

/* The most records that a log may have. */
#define YR_MAX_RECORDS 1024

/* The most bytes of a record: those of a call of add, or of a return with a value. */
#define YR_RECORD_MAX 12

/*
 * The most bytes of a readable log: 3, and 12 for each of 1,024 calls of add. An excerpt or a
 * narrowing never has more bytes than its log.
 */
#define YR_LOG_MAX 12291

/*
 * The most bytes of a sheet that is written here: 4, and 2 for each of 682 operations. A legal order
 * is longer only if it lists open adds whose values were never removed, or the open remove;
 * yr_replay takes that as well.
 */
#define YR_SHEET_MAX 1368

/* The most records of a log that has a page. */
#define YR_PAGE_RECORDS 63

/* The most bytes of a page: 81 for each of 63 operations. */
#define YR_PAGE_MAX 5103

/*
 * What every function answers. The high 32 bits are 0 if the call was accepted, and otherwise the
 * number of the refusal. The low 32 bits are what an accepted call returns, and otherwise the index
 * of the record at fault, or 0 where no single record is.
 */
typedef uint64_t yr_answer;

/* The number of the refusal, or 0 if the call was accepted. */
#define YR_REFUSED(answer) ((uint32_t)((answer) >> 32))

/* What an accepted call returns; of a refused call, the record index. */
#define YR_VALUE(answer) ((uint32_t)((answer) & 0xFFFFFFFFu))

/* The stages of a session. */
#define YR_OPEN 0
#define YR_CLOSED 1

/*
 * A session without its buffer. yr_begin sets the members, whatever they are before. The caller may
 * read them.
 */
typedef struct yr_session {
    uint32_t stage;  /* YR_OPEN or YR_CLOSED */
    uint32_t used;   /* how many bytes of the buffer are the log fed so far */
} yr_session;

/*
 * All refusals. Those from 1 to 11, and 30 to 32, concern what was handed in, those from 20 to 25
 * how things stand. A refused call writes to no buffer, and leaves the session as it was.
 *
 *     yr_check                1 to 10, 31
 *     yr_replay               1 to 11, 31
 *     yr_judge, yr_narrow     1 to 10, 24, 31
 *     yr_excerpt              1 to 10, 23, 24, 31, 32
 *     yr_page                 1 to 10, 24, 30, 31
 *     yr_begin                24
 *     yr_feed                 1, 4 to 9, 20, 21, 24, 25, 31
 *     yr_close                10, 20, 24, 25
 *     yr_sheet                22, 24, 25
 *     yr_session_excerpt      22 to 25, 32
 */
enum yr_refusal {
    YR_REFUSAL_BYTES = 1,            /* fewer than 3 bytes; the bytes end before or inside a record;
                                        bytes are left after the last record (index n); of a
                                        record that is fed: not exactly one record */
    YR_REFUSAL_VERSION = 2,          /* the version is not 1 */
    YR_REFUSAL_RECORDS = 3,          /* n is above YR_MAX_RECORDS */
    YR_REFUSAL_KIND = 4,             /* unknown kind */
    YR_REFUSAL_LENGTH = 5,           /* L is 0, or is not the kind's */
    YR_REFUSAL_TICK = 6,             /* the tick is below that of the record before */
    YR_REFUSAL_CALL = 7,             /* a call by a client with an open call */
    YR_REFUSAL_RETURN = 8,           /* a return with no open call of that client and that operation */
    YR_REFUSAL_VALUE = 9,            /* a value called to be added a second time */
    YR_REFUSAL_PENDING_REMOVE = 10,  /* a second remove without return (index of its call, also if
                                        there are more than two) */
    YR_REFUSAL_SHEET = 11,           /* a sheet for replay that has under 4 bytes, a version other
                                        than 1, a verdict other than 0, or a length other than
                                        4 + 2k */
    YR_REFUSAL_CLOSED = 20,          /* feed or close on a closed session */
    YR_REFUSAL_FULL = 21,            /* feed when YR_MAX_RECORDS records are held */
    YR_REFUSAL_OPEN = 22,            /* sheet or excerpt from an open session */
    YR_REFUSAL_ORDER = 23,           /* excerpt where the verdict is an order */
    YR_REFUSAL_BUFFER = 24,          /* a buffer too short for the complete answer, or for the fed
                                        record, or under 3 bytes at the beginning of a session */
    YR_REFUSAL_SESSION = 25,         /* the session's stage or used bytes do not fit its buffer, or
                                        the bytes are no readable log (of an open session: readable
                                        but for 10) */
    YR_REFUSAL_PAGE = 30,            /* the page of a log of more than YR_PAGE_RECORDS records */
    YR_REFUSAL_TICK_REPEATED = 31,   /* a call whose tick equals that of its client's last return */
    YR_REFUSAL_UNRETURNED = 32       /* the excerpt of a log with a remove that has not returned */
};

/*
 * Reads a log.
 *
 * In:   log      the log_len bytes of the log; never NULL, not even if log_len is 0
 *       log_len  any length; above YR_LOG_MAX no log is readable
 * Out:  accepted, with the number of operations, which is the number of call records (0 to 1,024),
 *       if the log is readable; otherwise one of the refusals below.
 *
 * The first test that fails decides, in this order:
 *
 *     1   the log has fewer than 3 bytes (index 0)
 *     2   the version is not 1 (index 0)
 *     3   n is above 1,024 (index 0)
 *     then for each record i from 0 to n - 1, before anything of record i + 1:
 *     1   the bytes end before the record or inside it (index i)
 *     5   L is 0 (index i)
 *     4   the kind is not one of 1 to 5 (index i)
 *     5   L is not the kind's (index i)
 *     6   the tick is below that of the record before, whoever made that (index i)
 *     7   a call, and the client has an open call (index i)
 *     31  a call, and its tick equals that of the client's last return (index i)
 *     8   a return, and the client has no open call of that operation (index i)
 *     9   a call of add, and an earlier record calls to add the same value (index i)
 *     then:
 *     1   bytes are left behind the last record (index n)
 *     10  two removes or more have no return (index of the second call of such a remove)
 *
 * Nothing is written. Less than 16 KiB of stack is used (15.6 KB measured).
 */
yr_answer yr_check(const uint8_t *log, size_t log_len);

/*
 * Holds the order on a sheet against a log.
 *
 * In:   log        the log_len bytes of the log; never NULL, not even if log_len is 0
 *       log_len    any length; above YR_LOG_MAX no log is readable
 *       sheet      the sheet_len bytes of the sheet; never NULL, not even if sheet_len is 0
 *       sheet_len  any length; above 131,074, where k is 65,535, every sheet is refused
 * Out:  accepted, with 1 (yes) if the order is legal for the log and 0 (no) if it is not; otherwise
 *       one of the refusals below.
 *
 * The first test that fails decides, in this order:
 *
 *     1 to 10, 31  the log is not readable: the refusal and the index that yr_check gives, whatever
 *                  the sheet is
 *     11           the sheet has fewer than 4 bytes (index 0)
 *     11           the version of the sheet is not 1 (index 0)
 *     11           the verdict is not 0 (index 0)
 *     11           the length of the sheet is not 4 + 2k (index 0)
 *
 * Nothing is refused for what the sheet lists. An operation listed twice, one left out that has
 * returned, or a number that the log lacks gives no. An open add may be listed once or left out,
 * also if its value was never removed; if a remove returned its value, no order without it is legal.
 * The open remove may be listed once or left out. Where it stands it takes the front value, which no
 * remove after it can take; where the queue is empty it changes nothing.
 *
 * Nothing is written. Less than 64 KiB of stack is used (44.6 KB measured).
 */
yr_answer yr_replay(const uint8_t *log, size_t log_len, const uint8_t *sheet, size_t sheet_len);

/*
 * Judges a log and writes the sheet of its verdict.
 *
 * In:   log        the log_len bytes of the log; never NULL, not even if log_len is 0
 *       log_len    any length; above YR_LOG_MAX no log is readable
 *       sheet      sheet_len bytes to write to, apart from the log; never NULL, not even if
 *                  sheet_len is 0; what they hold before does not matter
 *       sheet_len  any length; YR_SHEET_MAX is always enough
 * Out:  accepted, with the number of bytes written, which is 4 + 2k, at most YR_SHEET_MAX; otherwise
 *       one of the refusals below.
 *
 * If some order is legal for the log, the verdict is 0 and the sheet lists a legal order, to which
 * yr_replay says yes. It has every operation that returned, an open add exactly if a remove returned
 * its value, and the open remove exactly if no legal order leaves it out (see "The open remove").
 * Where several such orders are legal, it is always the same one for one log; a later version may
 * list another. Otherwise the verdict is the number of the pattern that is told, 1 to 6, and the
 * sheet lists its operations.
 *
 * The first test that fails decides, in this order:
 *
 *     1 to 10, 31  the log is not readable: the refusal and the index that yr_check gives, whatever
 *                  the sheet is
 *     24           sheet_len is below 4 + 2k (index 0)
 *
 * An accepted call writes the first 4 + 2k bytes of the sheet and leaves those behind them as they
 * were; a refused one leaves all as they were. The log is never written to. Less than 64 KiB of
 * stack is used (51.9 KB measured).
 */
yr_answer yr_judge(const uint8_t *log, size_t log_len, uint8_t *sheet, size_t sheet_len);

/*
 * Makes the excerpt of a log that has a pattern: the log of all records of all operations on the
 * values of the operations that the pattern lists and, with pattern 6, of the remove that it lists.
 * No other remove that returned empty is kept. The records stand in their order, with clients, ticks
 * and values as they were. An excerpt is a readable log, and its verdict has the same number. A log
 * with an open remove has no excerpt.
 *
 * In:   log      the log_len bytes of the log; never NULL, not even if log_len is 0
 *       log_len  any length; above YR_LOG_MAX no log is readable
 *       out      out_len bytes to write to, apart from the log; never NULL, not even if out_len is
 *                0; what they hold before does not matter
 *       out_len  any length; log_len is always enough, and so is YR_LOG_MAX
 * Out:  accepted, with the number of bytes written, which are those of the excerpt; otherwise one of
 *       the refusals below.
 *
 * The first test that fails decides, in this order:
 *
 *     1 to 10, 31  the log is not readable: the refusal and the index that yr_check gives, whatever
 *                  out_len is
 *     32           a remove of the log has not returned, whatever the verdict and out_len are
 *                  (index 0)
 *     23           the verdict on the log is an order, whatever out_len is (index 0)
 *     24           out_len is below the length of the excerpt (index 0)
 *
 * An accepted call writes the bytes of the excerpt and leaves those behind them as they were; a
 * refused one leaves all as they were. The log is never written to. Less than 64 KiB of stack is
 * used (52.9 KB measured).
 */
yr_answer yr_excerpt(const uint8_t *log, size_t log_len, uint8_t *out, size_t out_len);

/*
 * Narrows a log to a list of values: writes the log of all records of operations on these values
 * and of no others. An add is on the value that it names, returned or not, and a remove on the value
 * that it returned; a remove that returned empty, or has not returned, is on none and is never kept.
 * The records stand in their order, with clients, ticks and values as they were, so that what is
 * written is a readable log. Every remove in it has returned. If the log has an open remove, what is
 * written may have a pattern although the log has an order.
 *
 * In:   log      the log_len bytes of the log; never NULL, not even if log_len is 0
 *       log_len  any length; above YR_LOG_MAX no log is readable
 *       values   count values, as numbers; never NULL, not even if count is 0. Values that the log
 *                lacks, repeats and the order of the list change nothing
 *       count    any number; with 0 the log of no records is written, which has 3 bytes
 *       out      out_len bytes to write to, apart from the log and the values; never NULL, not even
 *                if out_len is 0; what they hold before does not matter
 *       out_len  any length; log_len is always enough, and so is YR_LOG_MAX
 * Out:  accepted, with the number of bytes written; otherwise one of the refusals below.
 *
 * The first test that fails decides, in this order:
 *
 *     1 to 10, 31  the log is not readable: the refusal and the index that yr_check gives, whatever
 *                  out_len is
 *     24           out_len is below the number of bytes to write (index 0)
 *
 * An accepted call writes its bytes and leaves those behind them as they were; a refused one leaves
 * all as they were. The log and the values are never written to. Less than 64 KiB of stack is used
 * (40.6 KB measured).
 */
yr_answer yr_narrow(const uint8_t *log, size_t log_len, const uint32_t *values, size_t count,
                    uint8_t *out, size_t out_len);

/*
 * Writes the page of a log: one line of text for each operation, as described above under "The page".
 *
 * In:   log       the log_len bytes of the log; never NULL, not even if log_len is 0
 *       log_len   any length; above YR_LOG_MAX no log is readable
 *       page      page_len bytes to write to, apart from the log; never NULL, not even if page_len is
 *                 0; what they hold before does not matter
 *       page_len  any length; YR_PAGE_MAX is always enough
 * Out:  accepted, with the number of bytes written, which is 81 for each operation, at most
 *       YR_PAGE_MAX, and 0 for the log of no records; otherwise one of the refusals below.
 *
 * The first test that fails decides, in this order:
 *
 *     1 to 10, 31  the log is not readable: the refusal and the index that yr_check gives, whatever
 *                  page_len is
 *     30           the log has more than YR_PAGE_RECORDS records, whatever page_len is (index 0)
 *     24           page_len is below 81 for each operation (index 0)
 *
 * An accepted call writes the bytes of the page and leaves those after them as they were; no zero
 * follows the page. A refused call leaves all as they were. The log is never written to. Less than
 * 64 KiB of stack is used (47.8 KB measured).
 */
yr_answer yr_page(const uint8_t *log, size_t log_len, uint8_t *page, size_t page_len);

/*
 * Begins a session, which then is open and holds the log of no records.
 *
 * In:   s    the session, apart from the buffer; never NULL; what it holds before does not matter
 *       buf  its buffer, len bytes; never NULL, not even if len is 0; what they hold before does not
 *            matter
 *       len  any length; YR_LOG_MAX is enough for all that can be fed
 * Out:  accepted, with the number of bytes written, which is 3; otherwise the refusal below.
 *
 *     24  len is below 3 (index 0)
 *
 * An accepted call sets the stage to YR_OPEN and the used bytes to 3, writes 1, 0, 0 to the first 3
 * bytes of the buffer and leaves those behind them as they were; a refused one leaves the session
 * and the buffer as they were. Less than 16 KiB of stack is used (0.1 KB measured).
 */
yr_answer yr_begin(yr_session *s, uint8_t *buf, size_t len);

/*
 * Feeds a record to a session, which puts it at the end of the log held.
 *
 * In:   s           the session; never NULL
 *       buf         its buffer, len bytes, as the call before left them; never NULL, not even if len
 *                   is 0
 *       len         any length; YR_LOG_MAX is enough for all that can be fed
 *       record      the record_len bytes of the record from its length byte on, apart from the
 *                   session and the buffer; never NULL, not even if record_len is 0
 *       record_len  any length; above YR_RECORD_MAX every record is refused
 * Out:  accepted, with the number of bytes that the log has grown by, which is 1 + L; otherwise one
 *       of the refusals below.
 *
 * The first test that fails decides, in this order, where n is the number of records held:
 *
 *     25  the session does not fit its buffer (index 0)
 *     20  the session is closed (index 0)
 *     21  n is 1,024 (index 0)
 *     1   the record has no bytes, or not 1 + L of them (index n)
 *     5   L is 0 (index n)
 *     4   the kind is not one of 1 to 5 (index n)
 *     5   L is not the kind's (index n)
 *     6   the tick is below that of the last record held (index n)
 *     7   a call, and the client has an open call (index n)
 *     31  a call, and its tick equals that of the client's last return (index n)
 *     8   a return, and the client has no open call of that operation (index n)
 *     9   a call of add, and a record held calls to add the same value (index n)
 *     24  len is below the used bytes and 1 + L more (index 0)
 *
 * An accepted call writes the record right behind the used bytes, the new n to bytes 1 and 2 of the
 * buffer and the new number of used bytes to the session, and leaves all else as it was; a refused
 * one leaves the session and the buffer as they were. The record is never written to. Less than
 * 16 KiB of stack is used (15.7 KB measured).
 */
yr_answer yr_feed(yr_session *s, uint8_t *buf, size_t len, const uint8_t *record,
                  size_t record_len);

/*
 * Closes a session: judges the log held and writes the sheet of its verdict.
 *
 * In:   s          the session; never NULL
 *       buf        its buffer, len bytes, as the call before left them; never NULL, not even if len
 *                  is 0
 *       len        any length
 *       sheet      sheet_len bytes to write to, apart from the session and its buffer; never NULL,
 *                  not even if sheet_len is 0; what they hold before does not matter
 *       sheet_len  any length; YR_SHEET_MAX is always enough
 * Out:  accepted, with the number of bytes written, which is 4 + 2k, at most YR_SHEET_MAX; otherwise
 *       one of the refusals below.
 *
 * The first test that fails decides, in this order:
 *
 *     25  the session does not fit its buffer (index 0)
 *     20  the session is closed (index 0)
 *     10  two removes or more have no return (index of the second call of such a remove)
 *     24  sheet_len is below 4 + 2k (index 0)
 *
 * An accepted call sets the stage to YR_CLOSED and leaves the used bytes as they were; it writes the
 * first 4 + 2k bytes of the sheet and leaves those behind them as they were. A refused one leaves
 * the session and the sheet as they were, so that an open session stays open. The session's buffer
 * is never written to. Less than 64 KiB of stack is used (52.0 KB measured).
 */
yr_answer yr_close(yr_session *s, const uint8_t *buf, size_t len, uint8_t *sheet,
                   size_t sheet_len);

/*
 * Writes the sheet of a closed session again.
 *
 * In:   s          the session; never NULL
 *       buf        its buffer, len bytes, as the call before left them; never NULL, not even if len
 *                  is 0
 *       len        any length
 *       sheet      sheet_len bytes to write to, apart from the session and its buffer; never NULL,
 *                  not even if sheet_len is 0; what they hold before does not matter
 *       sheet_len  any length; YR_SHEET_MAX is always enough
 * Out:  accepted, with the number of bytes written, which is 4 + 2k, at most YR_SHEET_MAX; otherwise
 *       one of the refusals below.
 *
 * The first test that fails decides, in this order:
 *
 *     25  the session does not fit its buffer (index 0)
 *     22  the session is open (index 0)
 *     24  sheet_len is below 4 + 2k (index 0)
 *
 * An accepted call writes the first 4 + 2k bytes of the sheet and leaves those behind them as they
 * were; a refused one leaves all as they were. The session and its buffer are never written to. Less
 * than 64 KiB of stack is used (52.0 KB measured).
 */
yr_answer yr_sheet(const yr_session *s, const uint8_t *buf, size_t len, uint8_t *sheet,
                   size_t sheet_len);

/*
 * Makes the excerpt of the log of a closed session, if that has a pattern and no open remove.
 *
 * In:   s        the session; never NULL
 *       buf      its buffer, len bytes, as the call before left them; never NULL, not even if len is
 *                0
 *       len      any length
 *       out      out_len bytes to write to, apart from the session and its buffer; never NULL, not
 *                even if out_len is 0; what they hold before does not matter
 *       out_len  any length; the number of used bytes is always enough, and so is YR_LOG_MAX
 * Out:  accepted, with the number of bytes written, which are those of the excerpt; otherwise one of
 *       the refusals below.
 *
 * The first test that fails decides, in this order:
 *
 *     25  the session does not fit its buffer (index 0)
 *     22  the session is open (index 0)
 *     32  a remove of the log has not returned, whatever the verdict and out_len are (index 0)
 *     23  the verdict on the log is an order, whatever out_len is (index 0)
 *     24  out_len is below the length of the excerpt (index 0)
 *
 * An accepted call writes the bytes of the excerpt and leaves those behind them as they were; a
 * refused one leaves all as they were. The session and its buffer are never written to. Less than
 * 64 KiB of stack is used (53.0 KB measured).
 */
yr_answer yr_session_excerpt(const yr_session *s, const uint8_t *buf, size_t len, uint8_t *out,
                             size_t out_len);

#ifdef __cplusplus
}
#endif

#endif /* YAUPONROOF_H */
