/*
 * The recorder, as a program in C uses it: what it writes byte for byte, when it is full, and that
 * the library takes it. Prints a line for each check that fails and last 'N passed, M failed'; the
 * exit status is 0 only if none failed.
 */

#include <string.h>

#include "count.h"
#include "lent.h"
#include "logs.h"
#include "yauponroof.h"
#include "yauponroof_recorder.h"

/* The bytes behind the buffer that must stay FILL. */
enum { GUARD = 32 };

/* The bytes that a call needs, with its return. */
enum { CALL_AND_RETURN = 20 };

static uint8_t buffer[YR_LOG_MAX + GUARD];
static yr_recorder recorder;

/* Begins a log in so many bytes of a buffer that is FILL before. */
static int begin(size_t room)
{
    memset(buffer, FILL, sizeof buffer);
    memset(&recorder, FILL, sizeof recorder);
    return yr_recorder_begin(&recorder, buffer, room);
}

/* Expects these bytes in the buffer, with nothing written behind them. */
static void expect_bytes(const uint8_t *bytes, size_t length, const char *what)
{
    count(yr_recorder_length(&recorder) == length && memcmp(buffer, bytes, length) == 0 &&
              is_filled(buffer, length, sizeof buffer),
          what);
}

/* The same for a log. */
static void expect_log(const struct log *log, const char *what)
{
    expect_bytes(log->bytes, log->length, what);
    count(recorder.records == log->records, "the records are counted");
}

/* Appends a record of any kind; what the recorder answers. */
static int append(enum kind kind, unsigned client, uint32_t tick, uint32_t value)
{
    uint16_t number = (uint16_t)client;
    switch (kind) {
    case CALL_ADD:
        return yr_recorder_add_called(&recorder, number, tick, value);
    case CALL_REMOVE:
        return yr_recorder_remove_called(&recorder, number, tick);
    case RETURN_ADD:
        return yr_recorder_add_returned(&recorder, number, tick);
    case RETURN_VALUE:
        return yr_recorder_remove_returned(&recorder, number, tick, value);
    default:
        return yr_recorder_remove_empty(&recorder, number, tick);
    }
}

/* Whether a record is not taken, and recorder and buffer are as they were. */
static int is_left_alone(enum kind kind)
{
    static uint8_t bytes[sizeof buffer];
    yr_recorder before = recorder;
    memcpy(bytes, buffer, sizeof buffer);
    return append(kind, 1, 0, 7) == 0 && memcmp(&before, &recorder, sizeof recorder) == 0 &&
           memcmp(bytes, buffer, sizeof buffer) == 0;
}

static void check_begin(void)
{
    static const uint8_t no_records[] = {1, 0, 0};
    for (size_t room = 0; room < 3; room++) {
        yr_recorder untouched;
        memset(&untouched, FILL, sizeof untouched);
        count(!begin(room), "fewer than 3 bytes are not enough");
        count(is_filled(buffer, 0, sizeof buffer), "no byte is written");
        count(memcmp(&recorder, &untouched, sizeof recorder) == 0, "nor is the recorder");
    }
    count(begin(3), "3 bytes are enough");
    expect_bytes(no_records, 3, "the log of no records");
    count(!yr_recorder_takes_call(&recorder), "3 bytes have no room for a call");
    count(is_left_alone(CALL_ADD) && is_left_alone(CALL_REMOVE), "and no call is taken");
}

/* Every field of every kind, against bytes written by hand. */
static void check_bytes(void)
{
    static const uint8_t expected[] = {
        1, 0, 6,
        11, 1, 0x12, 0x34, 0x01, 0x02, 0x03, 0x04, 0xFF, 0xFE, 0xFD, 0xFC,
        7, 2, 0xFF, 0xFF, 0x01, 0x02, 0x03, 0x05,
        7, 3, 0x12, 0x34, 0x01, 0x02, 0x03, 0x05,
        11, 4, 0xFF, 0xFF, 0x80, 0, 0, 0, 0xFF, 0xFE, 0xFD, 0xFC,
        7, 2, 0, 0, 0xFF, 0xFF, 0xFF, 0xFF,
        7, 5, 0, 0, 0xFF, 0xFF, 0xFF, 0xFF,
    };
    begin(YR_LOG_MAX);
    count(yr_recorder_add_called(&recorder, 0x1234, 0x01020304, 0xFFFEFDFC) == 1, "an add called");
    count(yr_recorder_remove_called(&recorder, 0xFFFF, 0x01020305) == 1, "a remove called");
    count(yr_recorder_add_returned(&recorder, 0x1234, 0x01020305) == 1, "the add returned");
    count(yr_recorder_remove_returned(&recorder, 0xFFFF, 0x80000000, 0xFFFEFDFC) == 1,
          "the remove returned");
    count(yr_recorder_remove_called(&recorder, 0, 0xFFFFFFFF) == 1, "another remove called");
    count(yr_recorder_remove_empty(&recorder, 0, 0xFFFFFFFF) == 1, "it returned empty");
    expect_bytes(expected, sizeof expected, "the five kinds, byte for byte");
    expect_answer(yr_check(buffer, sizeof expected), 0, 3, "the log of the five kinds");
}

/* After each record the buffer holds the log so far. */
static void check_growth(void)
{
    static struct log log;
    static const enum kind kinds[] = {CALL_ADD, CALL_REMOVE, RETURN_ADD, RETURN_VALUE,
                                      CALL_REMOVE, RETURN_EMPTY};
    begin(YR_LOG_MAX);
    log_begin(&log);
    for (unsigned i = 0; i < sizeof kinds / sizeof *kinds; i++) {
        unsigned client = kinds[i] == CALL_ADD || kinds[i] == RETURN_ADD ? 1 : 2;
        count(append(kinds[i], client, i, 7), "a record is taken");
        log_record(&log, kinds[i], client, 7);
        expect_log(&log, "the log so far");
    }
}

/* A return is taken only if a call of its operation is open. */
static void check_returns(void)
{
    begin(YR_LOG_MAX);
    count(is_left_alone(RETURN_ADD), "no add is open");
    count(is_left_alone(RETURN_VALUE) && is_left_alone(RETURN_EMPTY), "no remove is open");
    append(CALL_ADD, 1, 0, 7);
    count(is_left_alone(RETURN_VALUE) && is_left_alone(RETURN_EMPTY), "only an add is open");
    append(RETURN_ADD, 1, 0, 0);
    count(is_left_alone(RETURN_ADD), "the add has returned");
    append(CALL_REMOVE, 1, 0, 0);
    count(is_left_alone(RETURN_ADD), "only a remove is open");
    append(RETURN_EMPTY, 1, 0, 0);
    count(is_left_alone(RETURN_VALUE) && is_left_alone(RETURN_EMPTY), "the remove has returned");
}

/* Expects a record to be taken behind a call of add, by client 1 at tick 9 of value 7, and yr_check
   to refuse it. */
static void expect_refused(enum kind kind, unsigned client, uint32_t tick, uint32_t value,
                           uint32_t refusal, const char *what)
{
    begin(YR_LOG_MAX);
    append(CALL_ADD, 1, 9, 7);
    count(append(kind, client, tick, value), what);
    expect_answer(yr_check(buffer, yr_recorder_length(&recorder)), refusal, 1, what);
}

/* Clients, ticks and values are for yr_check. */
static void check_unchecked(void)
{
    expect_refused(CALL_ADD, 1, 9, 8, YR_REFUSAL_CALL, "a client calls while at work");
    expect_refused(RETURN_ADD, 2, 9, 0, YR_REFUSAL_RETURN, "another client returns");
    expect_refused(CALL_ADD, 2, 8, 8, YR_REFUSAL_TICK, "the tick falls");
    expect_refused(CALL_ADD, 2, 9, 7, YR_REFUSAL_VALUE, "7 is added again");
}

/* A log may be left with one open remove, whose client never came back, and not with two. */
static void check_open_removes(void)
{
    begin(YR_LOG_MAX);
    append(CALL_REMOVE, 2, 9, 0);
    expect_answer(yr_check(buffer, yr_recorder_length(&recorder)), 0, 1, "a remove is open");
    append(CALL_REMOVE, 3, 9, 0);
    expect_answer(yr_check(buffer, yr_recorder_length(&recorder)), YR_REFUSAL_PENDING_REMOVE, 1,
                  "two removes are open");
    append(RETURN_EMPTY, 2, 9, 0);
    expect_answer(yr_check(buffer, yr_recorder_length(&recorder)), 0, 2, "one has returned");
}

/* Whether a session takes the records of the log one by one, and holds the log then. */
static int is_fed(const uint8_t *log, size_t length)
{
    static uint8_t held[YR_LOG_MAX];
    yr_session session;
    yr_begin(&session, held, sizeof held);
    for (size_t at = 3; at < length; at += 1u + log[at])
        if (YR_REFUSED(yr_feed(&session, held, sizeof held, log + at, 1u + log[at])) != 0)
            return 0;
    return session.used == length && memcmp(held, log, length) == 0;
}

/* Expects the library to take what was recorded: so many operations, all returned. */
static void expect_readable(uint32_t operations, const char *what)
{
    size_t length = yr_recorder_length(&recorder);
    expect_answer(yr_check(buffer, length), 0, operations, what);
    count(is_fed(buffer, length), "a session takes every record");
}

/* How a log is filled. The client of a call is its number, and so is the value of an add. */
struct filling {
    int (*adds)(unsigned call);   /* whether that call is an add */
    int (*empty)(unsigned call);  /* whether that remove returns empty */
    unsigned open;                /* how many calls stay open while others are called */
};

static int always(unsigned call)
{
    (void)call;
    return 1;
}

static int never(unsigned call)
{
    (void)call;
    return 0;
}

static int in_turn(unsigned call)
{
    return call % 2 == 0;
}

static int in_threes(unsigned call)
{
    return call % 3 == 0;
}

/* Returns a call. A remove that is not empty returns the value of the call before it. */
static int return_call(const struct filling *filling, unsigned call)
{
    if (filling->adds(call))
        return append(RETURN_ADD, call, 0, 0);
    return append(filling->empty(call) ? RETURN_EMPTY : RETURN_VALUE, call, 0, call - 1);
}

/* Calls until no call is taken, and then returns what is open, earliest first; how many calls were
   taken. All along the query has to agree with what is taken, and every return has to be. */
static unsigned fill(const struct filling *filling, const char *what)
{
    unsigned called = 0, returned = 0, wrong = 0;
    for (;;) {
        int takes = yr_recorder_takes_call(&recorder);
        wrong += takes != append(filling->adds(called) ? CALL_ADD : CALL_REMOVE, called, 0, called);
        if (!takes)
            break;
        called++;
        if (called - returned > filling->open)
            wrong += !return_call(filling, returned++);
    }
    while (returned < called)
        wrong += !return_call(filling, returned++);
    count(wrong == 0, what);
    return called;
}

/* Fills a log in so many bytes: nothing is written behind them, and the library takes the log. */
static unsigned expect_filled(size_t room, const struct filling *filling, const char *what)
{
    begin(room);
    unsigned calls = fill(filling, what);
    count(yr_recorder_length(&recorder) <= room && is_filled(buffer, room, sizeof buffer),
          "nothing is written behind the bytes lent");
    count(recorder.records == 2 * calls, "every call has returned");
    expect_readable(calls, what);
    return calls;
}

static const struct filling fillings[] = {
    {always, never, 0},     {always, never, 3},      {never, never, 0},
    {never, never, 2},      {never, always, 1},      {never, in_turn, 1},
    {in_turn, never, 0},    {in_turn, in_threes, 5}, {in_threes, in_turn, 4},
    {in_threes, never, 40},
};

/* Buffers of every length up to that of some calls. */
static void check_short_buffers(void)
{
    for (unsigned i = 0; i < sizeof fillings / sizeof *fillings; i++)
        for (size_t room = 3; room <= 3 + 8 * CALL_AND_RETURN; room++)
            expect_filled(room, &fillings[i], "a short buffer is filled");
}

/* Calls take 20 bytes with their returns: one byte less is not enough. */
static void check_exact_buffers(void)
{
    for (unsigned calls = 1; calls <= 12; calls++) {
        static const struct filling all_called = {in_turn, never, 12};
        size_t room = 3 + CALL_AND_RETURN * (size_t)calls;
        count(expect_filled(room - 1, &all_called, "one byte less") == calls - 1,
              "one byte less takes one call less");
        count(expect_filled(room, &all_called, "just enough") == calls, "just enough takes all");
        count(yr_recorder_length(&recorder) == room, "and is filled to the last byte");
    }
}

/* A remove that returned empty leaves 4 of the bytes that were kept for it. */
static void check_bytes_given_back(void)
{
    begin(3 + 5 * CALL_AND_RETURN + 16);
    for (unsigned i = 0; i < 5; i++)
        append(CALL_REMOVE, i, 0, 0);
    for (unsigned i = 0; i < 5; i++) {
        count(yr_recorder_takes_call(&recorder) == (i >= 1), "4 bytes given back are enough");
        append(RETURN_EMPTY, i, 0, 0);
    }
    count(yr_recorder_takes_call(&recorder), "a call is taken again");
}

/* In the longest buffer the records are what runs out. */
static void check_most_records(void)
{
    static const struct filling all_open = {in_turn, never, 1024};
    for (unsigned i = 0; i < sizeof fillings / sizeof *fillings; i++) {
        count(expect_filled(YR_LOG_MAX, &fillings[i], "the longest log") == 512,
              "512 calls are taken");
        count(recorder.records == YR_MAX_RECORDS, "1,024 records are written");
        count(buffer[1] == 4 && buffer[2] == 0, "and counted");
    }
    count(expect_filled(YR_LOG_MAX, &all_open, "512 open calls") == 512, "512 calls are open");
    count(is_left_alone(CALL_ADD) && is_left_alone(CALL_REMOVE), "a full log takes no call");
    count(is_left_alone(RETURN_ADD) && is_left_alone(RETURN_VALUE), "nor a return");
    count(expect_filled(SIZE_MAX, &all_open, "a buffer said to be as long as can be") == 512,
          "the length of the buffer does not overflow");
}

/* A log of a correct queue, recorded, is the same log, and the judge finds an order. */
static void check_recorded_run(void)
{
    static struct log log;
    static struct sheet order;
    static uint8_t sheet[YR_SHEET_MAX];
    log_simulate(&log, &order, CLIENTS_REUSED);
    begin(YR_LOG_MAX);
    for (size_t at = 3; at < log.length; at += 1u + log.bytes[at]) {
        const uint8_t *record = log.bytes + at;
        uint32_t value = record[0] == 11 ? sheet_u16(record + 10) : 0;
        append((enum kind)record[1], sheet_u16(record + 2), recorder.records, value);
    }
    expect_log(&log, "the run, recorded");
    expect_readable(512, "the run is readable");
    yr_judge(buffer, yr_recorder_length(&recorder), sheet, sizeof sheet);
    count(sheet_verdict(sheet) == 0, "the run has an order");
}

int main(void)
{
    check_begin();
    check_bytes();
    check_growth();
    check_returns();
    check_unchecked();
    check_open_removes();
    check_short_buffers();
    check_exact_buffers();
    check_bytes_given_back();
    check_most_records();
    check_recorded_run();
    return counted();
}
