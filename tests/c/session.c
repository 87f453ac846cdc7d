/*
 * Sessions through the header, as a program in C uses them. Prints a line for each check that fails
 * and last 'N passed, M failed'; the exit status is 0 only if none failed.
 */

#include <string.h>

#include "count.h"
#include "lent.h"
#include "logs.h"
#include "sheets.h"
#include "yauponroof.h"

/* What an accepted replay returns for a legal order. */
enum { YES = 1 };

/* A stage that there is not. */
enum { NO_STAGE = 2 };

/* All that a call on a session can write to. */
struct state {
    yr_session session;
    uint8_t buffer[YR_LOG_MAX + 32];
    uint8_t out[YR_LOG_MAX + 32];
};

/* How everything stands, and how it has to stand after the last call. */
static struct state now, expected;

/* How many bytes of the buffer are lent. */
static size_t room;

static struct log run;
static struct sheet order;
static uint8_t judged[YR_SHEET_MAX], kept[YR_LOG_MAX];

/* Fills what is written to. Until told otherwise, everything has to stay as it now is. */
static void prepare(void)
{
    memset(now.out, FILL, sizeof now.out);
    memcpy(&expected, &now, sizeof now);
}

static yr_answer begin(void)
{
    prepare();
    return yr_begin(&now.session, now.buffer, room);
}

static yr_answer feed(const uint8_t *record, size_t length)
{
    prepare();
    return yr_feed(&now.session, now.buffer, room, record, length);
}

static yr_answer close_to(size_t length)
{
    prepare();
    return yr_close(&now.session, now.buffer, room, now.out, length);
}

static yr_answer sheet_to(size_t length)
{
    prepare();
    return yr_sheet(&now.session, now.buffer, room, now.out, length);
}

static yr_answer excerpt_to(size_t length)
{
    prepare();
    return yr_session_excerpt(&now.session, now.buffer, room, now.out, length);
}

/* Expects this answer of the last call, and that everything stands as it has to. */
static void expect(yr_answer answer, uint32_t refusal, uint32_t value, const char *what)
{
    expect_answer(answer, refusal, value, what);
    count(memcmp(&now, &expected, sizeof now) == 0, "session and buffers stand as they have to");
}

/* Expects the last call to have written these bytes to its output. */
static void expect_written(yr_answer answer, const uint8_t *bytes, size_t length, const char *what)
{
    memcpy(expected.out, bytes, length);
    expect(answer, 0, (uint32_t)length, what);
}

/* How many records the session holds. */
static unsigned held(void)
{
    return sheet_u16(now.buffer + 1);
}

/* Feeds a record; whether it is accepted and all it alters is the used bytes, the count in the
   buffer and the bytes just behind the used ones. */
static int fed(const uint8_t *record, size_t length)
{
    unsigned n = held() + 1;
    yr_answer answer = feed(record, length);
    memcpy(expected.buffer + expected.session.used, record, length);
    expected.buffer[1] = (uint8_t)(n >> 8);
    expected.buffer[2] = (uint8_t)n;
    expected.session.used += (uint32_t)length;
    return answer == length && memcmp(&now, &expected, sizeof now) == 0;
}

/* Begins a session in so many bytes of a buffer. Session and buffer are FILL before. */
static void expect_begun(size_t length)
{
    memset(&now, FILL, sizeof now);
    room = length;
    yr_answer answer = begin();
    expected.session.stage = YR_OPEN;
    expected.session.used = 3;
    expected.buffer[0] = 1;
    expected.buffer[1] = 0;
    expected.buffer[2] = 0;
    expect(answer, 0, 3, "a session is begun");
}

/* Feeds record i of `run`. */
static int fed_from_run(unsigned i)
{
    size_t start = log_start(&run, i);
    return fed(run.bytes + start, log_start(&run, i + 1) - start);
}

/* Begins a session and feeds it all records of `run`, in a buffer that they just fill. */
static void feed_run(const char *what)
{
    int holds = 1;
    expect_begun(run.length);
    for (unsigned i = 0; i < run.records; i++)
        holds = holds && fed_from_run(i);
    count(holds, what);
    count(now.session.used == run.length && memcmp(now.buffer, run.bytes, run.length) == 0,
          "the buffer holds the log");
}

/* Feeds a record that is refused like this. */
static void expect_refused(const uint8_t *record, size_t length, uint32_t refusal, uint32_t index,
                           const char *what)
{
    expect(feed(record, length), refusal, index, what);
}

/* Feeds the record that `run` would have next. It is refused, and not put into `run`. */
static void expect_next_refused(enum kind kind, unsigned client, uint32_t value, uint32_t refusal,
                                const char *what)
{
    size_t start = run.length;
    log_record(&run, kind, client, value);
    expect_refused(run.bytes + start, run.length - start, refusal, run.records - 1, what);
    run.length = start;
    log_set_n(&run, --run.records);
}

static void check_macros(void)
{
    count(sizeof(yr_session) == 8, "a session has two numbers of 32 bits");
    count(YR_LOG_MAX == 3 + YR_RECORD_MAX * YR_MAX_RECORDS, "YR_RECORD_MAX is the longest record");
}

static void check_begin(void)
{
    memset(&now, FILL, sizeof now);
    room = 0;
    expect(begin(), YR_REFUSAL_BUFFER, 0, "a buffer of no bytes");
    room = 2;
    expect(begin(), YR_REFUSAL_BUFFER, 0, "a buffer of 2 bytes");
    expect_begun(3);
    expect_begun(YR_LOG_MAX);
}

/* Document 01's second run. */
static void check_second_run(void)
{
    const uint8_t legal[] = {1, 0, 0, 2, 0, 0, 0, 1};
    log_begin(&run);
    memcpy(run.bytes, second_run, sizeof second_run);
    run.length = sizeof second_run;
    run.records = 4;

    expect_begun(sizeof second_run);
    expect(sheet_to(YR_SHEET_MAX), YR_REFUSAL_OPEN, 0, "the sheet of an open session");
    for (unsigned i = 0; i < 4; i++)
        count(fed_from_run(i), "a record of the second run is fed");
    count(memcmp(now.buffer, second_run, sizeof second_run) == 0, "the buffer holds the log");
    expect(sheet_to(0), YR_REFUSAL_OPEN, 0, "the sheet of an open session, in no bytes");
    expect(excerpt_to(YR_LOG_MAX), YR_REFUSAL_OPEN, 0, "the excerpt of an open session");

    expect(close_to(0), YR_REFUSAL_BUFFER, 0, "closed with a sheet of no bytes");
    expect(close_to(sizeof legal - 1), YR_REFUSAL_BUFFER, 0, "closed with a byte less than needed");
    yr_answer answer = close_to(sizeof legal);
    expected.session.stage = YR_CLOSED;
    expect_written(answer, legal, sizeof legal, "closed: the add, then the remove");
    expect_answer(yr_replay(now.buffer, now.session.used, now.out, sizeof legal), 0, YES,
                  "the order on the sheet is legal");

    expect_written(sheet_to(sizeof legal), legal, sizeof legal, "the sheet of a closed session");
    expect(sheet_to(sizeof legal - 1), YR_REFUSAL_BUFFER, 0, "the sheet in a byte less");
    expect(excerpt_to(YR_LOG_MAX), YR_REFUSAL_ORDER, 0, "the verdict is an order");
    expect(excerpt_to(0), YR_REFUSAL_ORDER, 0, "the verdict is an order, in no bytes");
    expect(close_to(YR_SHEET_MAX), YR_REFUSAL_CLOSED, 0, "closed a second time");
    expect_refused(legal, sizeof legal, YR_REFUSAL_CLOSED, 0, "fed when closed, and no record");
    expect_begun(sizeof second_run);
}

/* A session without records can be closed. */
static void check_no_records(void)
{
    const uint8_t nothing[] = {1, 0, 0, 0};
    expect_begun(3);
    yr_answer answer = close_to(sizeof nothing);
    expected.session.stage = YR_CLOSED;
    expect_written(answer, nothing, sizeof nothing, "closed without records");
}

/* Bytes that are not one record, or not one of the log. The session holds 3 records. */
static void check_refused_records(void)
{
    const uint8_t no_length[] = {0, 0};
    const uint8_t kind[] = {3, 9, 0, 0, 0};
    const uint8_t length[] = {7, 1, 0, 9, 0, 0, 0, 9};
    const uint8_t longest[256] = {255, 1};
    const uint8_t behind[] = {5, 1, 0, 0, 0, 0, 255};
    const uint8_t call[] = {7, 2, 0, 9, 0, 0, 0, 9, 0};

    log_begin(&run);
    log_record(&run, CALL_ADD, 1, 7);
    log_record(&run, CALL_REMOVE, 300, 0);
    log_record(&run, CALL_ADD, 2, 0);
    feed_run("two adds and a remove, all without return");
    room = YR_LOG_MAX;

    expect_refused(call, 0, YR_REFUSAL_BYTES, 3, "no bytes");
    expect_refused(call, 1, YR_REFUSAL_BYTES, 3, "a length byte alone");
    expect_refused(call, 7, YR_REFUSAL_BYTES, 3, "the bytes end inside the record");
    expect_refused(call, 9, YR_REFUSAL_BYTES, 3, "a byte behind the record");
    expect_refused(no_length, 2, YR_REFUSAL_BYTES, 3, "a byte behind a record with L = 0");
    expect_refused(no_length, 1, YR_REFUSAL_LENGTH, 3, "L is 0");
    expect_refused(kind, 5, YR_REFUSAL_BYTES, 3, "a byte behind a record of kind 9");
    expect_refused(kind, 4, YR_REFUSAL_KIND, 3, "kind 9");
    expect_refused(length, sizeof length, YR_REFUSAL_LENGTH, 3, "a call of add with L = 7");
    expect_refused(behind, sizeof behind, YR_REFUSAL_BYTES, 3, "a byte behind a call with L = 5");
    expect_refused(longest, sizeof longest, YR_REFUSAL_LENGTH, 3, "a call of add with L = 255");
    expect_refused(second_run, sizeof second_run, YR_REFUSAL_BYTES, 3, "a log, not a record");

    expect_refused(run.bytes + 3, 12, YR_REFUSAL_TICK, 3, "record 0 again, so the tick falls");
    expect_next_refused(CALL_REMOVE, 1, 0, YR_REFUSAL_CALL, "client 1 calls while at work");
    expect_next_refused(CALL_ADD, 300, 7, YR_REFUSAL_CALL, "a client at work adds 7 again");
    expect_next_refused(RETURN_ADD, 3, 0, YR_REFUSAL_RETURN, "client 3 has not called");
    expect_next_refused(RETURN_EMPTY, 1, 0, YR_REFUSAL_RETURN, "an add returns as a remove");
    expect_next_refused(RETURN_ADD, 300, 0, YR_REFUSAL_RETURN, "a remove returns as an add");
    expect_next_refused(CALL_ADD, 3, 7, YR_REFUSAL_VALUE, "7 is added again");

    room = run.length;
    expect_next_refused(CALL_ADD, 3, 0, YR_REFUSAL_VALUE, "0 is added again, and there is no room");
    expect_refused(call, 9, YR_REFUSAL_BYTES, 3, "a byte behind the record, and there is no room");
}

/* A call at the tick of its client's last return. The session holds 4 records. */
static void check_repeated_tick(void)
{
    log_begin(&run);
    log_record(&run, CALL_REMOVE, 2, 0);
    log_record(&run, CALL_REMOVE, 5, 0);
    log_record(&run, CALL_ADD, 1, 7);
    log_record(&run, RETURN_ADD, 1, 0);
    feed_run("an add that has returned, and two removes that have not");
    room = YR_LOG_MAX;

    for (unsigned client = 1; client <= 3; client++) {
        uint32_t refusals[] = {0, YR_REFUSAL_TICK_REPEATED, YR_REFUSAL_CALL, YR_REFUSAL_VALUE};
        size_t start = run.length;
        log_record(&run, CALL_ADD, client, 7);
        log_join(&run, 4);
        expect_refused(run.bytes + start, run.length - start, refusals[client], 4,
                       "7 is added again at the tick of the return");
        run.length = start;
        log_set_n(&run, --run.records);
    }
    expect(close_to(YR_SHEET_MAX), YR_REFUSAL_PENDING_REMOVE, 1, "what was held before is held");

    log_record(&run, CALL_REMOVE, 1, 0);
    log_join(&run, 4);
    room = log_start(&run, 4);
    expect_refused(run.bytes + room, 8, YR_REFUSAL_TICK_REPEATED, 4, "client 1, without room");
    room = YR_LOG_MAX;
    run.bytes[log_start(&run, 4) + 3] = 4;
    count(fed_from_run(4), "client 4 calls at that tick");
}

/* Records for which the buffer has just room, or a byte less. */
static void check_room(void)
{
    log_begin(&run);
    log_record(&run, CALL_ADD, 1, 7);
    log_record(&run, RETURN_ADD, 1, 0);
    for (unsigned i = 0; i < 2; i++) {
        size_t start = log_start(&run, i), end = log_start(&run, i + 1);
        if (i == 0)
            expect_begun(start);
        room = start;
        expect(feed(run.bytes + start, end - start), YR_REFUSAL_BUFFER, 0, "no room at all");
        room = end - 1;
        expect(feed(run.bytes + start, end - start), YR_REFUSAL_BUFFER, 0, "room for a byte less");
        room = end;
        count(fed_from_run(i), "just room for the record");
    }
}

/* A second remove without return keeps a session from being closed and not from being fed. */
static void check_pending_removes(void)
{
    log_begin(&run);
    log_record(&run, CALL_ADD, 1, 7);
    log_record(&run, CALL_REMOVE, 2, 0);
    log_record(&run, CALL_REMOVE, 3, 0);
    log_record(&run, CALL_REMOVE, 4, 0);
    feed_run("three removes without return");
    expect_answer(yr_judge(run.bytes, run.length, judged, sizeof judged), YR_REFUSAL_PENDING_REMOVE,
                  2, "the log is refused as the session is");
    expect(close_to(YR_SHEET_MAX), YR_REFUSAL_PENDING_REMOVE, 2, "three removes do not return");
    expect(close_to(0), YR_REFUSAL_PENDING_REMOVE, 2, "three removes do not return, no bytes");
    expect(sheet_to(YR_SHEET_MAX), YR_REFUSAL_OPEN, 0, "the session is still open");

    log_record(&run, RETURN_VALUE, 2, 7);
    room = run.length;
    count(fed_from_run(4), "the first remove returns");
    expect(close_to(YR_SHEET_MAX), YR_REFUSAL_PENDING_REMOVE, 3, "the others do not return");
    log_record(&run, RETURN_EMPTY, 3, 0);
    room = run.length;
    count(fed_from_run(5), "another remove returns");
    expect_answer(close_to(YR_SHEET_MAX), 0, SHEET_HEADER + 2 * 3, "now the session is closed");
    count(now.session.stage == YR_CLOSED, "its stage says so");
}

/* A session is closed over one remove without return, and has no excerpt then. */
static void check_pending_remove(void)
{
    const uint8_t taken[] = {1, 0, 0, 3, 0, 0, 0, 1, 0, 2};
    log_begin(&run);
    log_record(&run, CALL_ADD, 1, 7);
    log_record(&run, RETURN_ADD, 1, 0);
    log_record(&run, CALL_REMOVE, 2, 0);
    log_record(&run, CALL_REMOVE, 1, 0);
    log_record(&run, RETURN_EMPTY, 1, 0);
    feed_run("a remove without return, which took 7");
    expect(excerpt_to(0), YR_REFUSAL_OPEN, 0, "the session is open");
    expect(close_to(sizeof taken - 1), YR_REFUSAL_BUFFER, 0, "closed with a byte less than needed");
    yr_answer answer = close_to(sizeof taken);
    expected.session.stage = YR_CLOSED;
    expect_written(answer, taken, sizeof taken, "closed over a remove without return");
    expect_written(sheet_to(sizeof taken), taken, sizeof taken, "the sheet, once more");
    expect(excerpt_to(YR_LOG_MAX), YR_REFUSAL_UNRETURNED, 0, "no excerpt, though there are bytes");
    expect(excerpt_to(0), YR_REFUSAL_UNRETURNED, 0, "no excerpt, and no bytes");
    expect(close_to(YR_SHEET_MAX), YR_REFUSAL_CLOSED, 0, "closed a second time");
    expect_refused(second_run + 3, 12, YR_REFUSAL_CLOSED, 0, "fed when closed");
}

/* Feeds all records of `run` and closes, which answers and writes what the judge does on the log. So
   do the sheet and the excerpt of the closed session, in just enough bytes and in one less. Bytes
   behind the used ones, once the buffer has some, change nothing. */
static void expect_as_log(const char *what)
{
    yr_answer sheet = yr_judge(run.bytes, run.length, judged, sizeof judged);
    yr_answer excerpt = yr_excerpt(run.bytes, run.length, kept, sizeof kept);
    count(YR_REFUSED(sheet) == 0, what);
    feed_run(what);
    room = sizeof now.buffer;
    expect(close_to(YR_VALUE(sheet) - 1), YR_REFUSAL_BUFFER, 0, "closed with a byte less");
    yr_answer answer = close_to(YR_VALUE(sheet));
    expected.session.stage = YR_CLOSED;
    expect_written(answer, judged, YR_VALUE(sheet), what);
    expect_written(sheet_to(YR_VALUE(sheet)), judged, YR_VALUE(sheet), what);
    expect(sheet_to(YR_VALUE(sheet) - 1), YR_REFUSAL_BUFFER, 0, "the sheet in a byte less");
    if (YR_REFUSED(excerpt)) {
        expect(excerpt_to(YR_LOG_MAX), YR_REFUSED(excerpt), YR_VALUE(excerpt), what);
        return;
    }
    expect_written(excerpt_to(YR_VALUE(excerpt)), kept, YR_VALUE(excerpt), what);
    expect(excerpt_to(YR_VALUE(excerpt) - 1), YR_REFUSAL_BUFFER, 0, "the excerpt in a byte less");
}

/* A chain of two values under an empty remove, and records that the excerpt leaves out. */
static void check_pattern(void)
{
    log_begin(&run);
    log_record(&run, CALL_ADD, 1, 1);
    log_record(&run, RETURN_ADD, 1, 0);
    log_record(&run, CALL_REMOVE, 2, 0);
    log_record(&run, CALL_ADD, 1, 2);
    log_record(&run, RETURN_ADD, 1, 0);
    log_record(&run, CALL_REMOVE, 4, 0);
    log_record(&run, RETURN_VALUE, 4, 1);
    log_record(&run, CALL_ADD, 3, 3);
    log_record(&run, RETURN_EMPTY, 2, 0);
    log_record(&run, CALL_REMOVE, 2, 0);
    log_record(&run, RETURN_VALUE, 2, 2);
    expect_as_log("a chain under an empty remove");
    expect_answer(excerpt_to(YR_LOG_MAX), 0, (uint32_t)run.length - 12, "all but one add is kept");
    count(sheet_verdict(judged) == 6, "the log has pattern 6");
    expect_answer(yr_judge(now.out, run.length - 12, judged, sizeof judged), 0,
                  SHEET_HEADER + 2 * 3, "the excerpt is judged");
    count(sheet_verdict(judged) == 6, "the excerpt has pattern 6");
}

static void check_whole_logs(void)
{
    for (unsigned pattern = 1; pattern <= 6; pattern++) {
        log_begin(&run);
        log_occurrence(&run, pattern);
        expect_as_log("a pattern alone");
        log_late_pattern(&run, &order, pattern);
        expect_as_log("a pattern at the end");
    }
    log_simulate(&run, &order, CLIENTS_REUSED);
    expect_as_log("a run of 8 clients");
    log_simulate(&run, &order, CLIENTS_APART);
    expect_as_log("a run of 8 clients, 1,024 apart");
    log_simulate_by(&run, &order, CLIENTS_REUSED, MOST_WORKERS);
    expect_as_log("a run of 64 clients");
    log_calls_then_returns(&run, &order);
    expect_as_log("512 calls, then their returns");
    log_one_tick(&run, &order);
    expect_as_log("512 calls, then their returns, all of one tick");
    log_values_of_slot(&run, &order);
    expect_as_log("256 adds, then 256 removes, of values that share a slot");
    log_relay(&run, &order, 170, 170, LAST_TRUE);
    expect_as_log("170 empty removes over 170 values");
    log_relay(&run, &order, 170, 170, LAST_FALSE);
    expect_as_log("170 empty removes over 170 values, the last one false");
    log_pending_adds(&run, 341);
    for (unsigned i = 0; i < 341; i++) {
        log_record(&run, CALL_REMOVE, 341, 0);
        log_record(&run, RETURN_VALUE, 341, i);
    }
    expect_as_log("the longest sheet");
    expect_answer(sheet_to(YR_SHEET_MAX), 0, YR_SHEET_MAX, "YR_SHEET_MAX is just enough");
}

/* Each pattern with an open remove that is called before it or after it. */
static void check_whole_logs_open(void)
{
    for (unsigned pattern = 1; pattern <= 6; pattern++) {
        log_late_pattern_open(&run, &order, pattern, OPEN_BEFORE);
        expect_as_log("an open remove, then a pattern");
        log_late_pattern_open(&run, &order, pattern, OPEN_AFTER);
        expect_as_log("a pattern, then an open remove");
    }
    log_relay_open(&run, &order, 170, 170, LAST_TRUE);
    expect_as_log("170 empty removes over 170 values, the last of which an open remove took");
    log_relay_open(&run, &order, 170, 170, LAST_FALSE);
    expect_as_log("the same, and the last empty remove is false");
    log_pending_adds(&run, YR_MAX_RECORDS - 1);
    log_record(&run, CALL_REMOVE, YR_MAX_RECORDS, 0);
    expect_as_log("1,023 adds without return and a remove without");
}

/* 1,024 records are held, and then none is fed any more. */
static void check_full(void)
{
    log_pending_adds(&run, YR_MAX_RECORDS);
    expect_as_log("1,024 adds without return");
    feed_run("1,024 adds without return, once more");
    count(now.session.used == YR_LOG_MAX && held() == YR_MAX_RECORDS, "the longest log is held");

    log_pending_adds(&run, YR_MAX_RECORDS + 1);
    size_t start = log_start(&run, YR_MAX_RECORDS);
    expect_refused(run.bytes + start, 12, YR_REFUSAL_FULL, 0, "the 1,025th record");
    expect_refused(run.bytes + start, 0, YR_REFUSAL_FULL, 0, "no bytes, with 1,024 records held");
    room = YR_LOG_MAX + 12;
    expect_refused(run.bytes + start, 12, YR_REFUSAL_FULL, 0, "the 1,025th record, with room");
    now.session.stage = YR_CLOSED;
    expect_refused(run.bytes + start, 12, YR_REFUSAL_CLOSED, 0, "the 1,025th record, when closed");
}

/* Expects all calls on the session to be refused 25, with long buffers and with none. */
static void expect_unfit(const char *what)
{
    const uint8_t record[] = {7, 2, 0, 9, 0, 0, 0, 9};
    expect(feed(record, sizeof record), YR_REFUSAL_SESSION, 0, what);
    expect(feed(record, 0), YR_REFUSAL_SESSION, 0, what);
    expect(close_to(YR_SHEET_MAX), YR_REFUSAL_SESSION, 0, what);
    expect(close_to(0), YR_REFUSAL_SESSION, 0, what);
    expect(sheet_to(YR_SHEET_MAX), YR_REFUSAL_SESSION, 0, what);
    expect(sheet_to(0), YR_REFUSAL_SESSION, 0, what);
    expect(excerpt_to(YR_LOG_MAX), YR_REFUSAL_SESSION, 0, what);
    expect(excerpt_to(0), YR_REFUSAL_SESSION, 0, what);
}

/* The same, whether the session is open or closed. */
static void expect_unfit_both(const char *what)
{
    now.session.stage = YR_OPEN;
    expect_unfit(what);
    now.session.stage = YR_CLOSED;
    expect_unfit(what);
}

static void check_stage(void)
{
    log_begin(&run);
    log_occurrence(&run, 6);
    feed_run("pattern 6");
    now.session.stage = NO_STAGE;
    expect_unfit("stage 2");
    now.session.stage = 0xFFFFFFFFu;
    expect_unfit("the highest stage");
    now.session.stage = 256;
    expect_unfit("a stage whose low byte is 0");

    log_record(&run, CALL_REMOVE, 1, 0);
    feed_run("a remove without return");
    now.session.stage = YR_CLOSED;
    expect_answer(sheet_to(YR_SHEET_MAX), 0, SHEET_HEADER + 2 * 2, "closed over such a remove");
    log_record(&run, CALL_REMOVE, 2, 0);
    feed_run("two removes without return");
    now.session.stage = YR_CLOSED;
    expect_unfit("closed, though two removes have no return");
}

static void check_used(void)
{
    log_begin(&run);
    log_occurrence(&run, 6);
    feed_run("pattern 6");
    uint32_t used = now.session.used;

    room = used - 1;
    expect_unfit_both("a byte more used than the buffer has");
    room = 0;
    expect_unfit_both("a buffer of no bytes");
    room = YR_LOG_MAX;
    now.session.used = 0xFFFFFFFFu;
    expect_unfit_both("the highest number of used bytes");
    now.session.used = 0;
    expect_unfit_both("no used bytes");
    now.session.used = 2;
    expect_unfit_both("2 used bytes");
    now.session.used = used - 1;
    expect_unfit_both("a byte of the log is not used");
    now.session.used = used + 1;
    expect_unfit_both("a byte behind the log is used");
}

static void check_bytes(void)
{
    log_begin(&run);
    log_occurrence(&run, 6);
    feed_run("pattern 6");

    now.buffer[0] = 2;
    expect_unfit_both("version 2");
    now.buffer[0] = 1;
    now.buffer[1] = 5;
    expect_unfit_both("more than 1,024 records");
    now.buffer[1] = 0;
    now.buffer[2]--;
    expect_unfit_both("a record less than there are");
    now.buffer[2]++;
    now.buffer[log_start(&run, 2) + 3]++;
    expect_unfit_both("the empty remove returns to another client");
    now.buffer[log_start(&run, 2) + 3]--;
    now.buffer[log_start(&run, 2) + 7]--;
    expect_unfit_both("the empty remove is called at the tick of its client's return");
    now.buffer[log_start(&run, 2) + 7]++;
    expect_answer(sheet_to(YR_SHEET_MAX), 0, SHEET_HEADER + 2 * 2, "the session fits again");
}

int main(void)
{
    check_macros();
    check_begin();
    check_second_run();
    check_no_records();
    check_refused_records();
    check_repeated_tick();
    check_room();
    check_pending_removes();
    check_pending_remove();
    check_pattern();
    check_whole_logs();
    check_whole_logs_open();
    check_full();
    check_stage();
    check_used();
    check_bytes();
    return counted();
}
