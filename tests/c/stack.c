/*
 * The stack that the entries use. A thread runs on a stack painted with a pattern; the deepest byte
 * that has lost the pattern tells how far below the calling frame the call went. Prints a line for
 * each measurement and last 'N passed, M failed'; the exit status is 0 only if none failed.
 *
 * What the thread's own start and end leave on the stack counts as well, so a figure is never too
 * small; a call of an empty function through the same path shows how much that is. A function that
 * uses a known amount shows that the measurement works.
 */

#define _POSIX_C_SOURCE 200809L

#include <pthread.h>
#include <stdio.h>
#include <stdlib.h>
#include <string.h>

#include "count.h"
#include "logs.h"
#include "sessions.h"
#include "sheets.h"
#include "yauponroof.h"

#define STACK_SIZE (256 * 1024)
#define KNOWN_USE (8 * 1024)
#define PAINT 0xA5
#define ALIGNMENT 4096

typedef yr_answer (*function)(const struct log *, const struct sheet *);

/* What the thread calls, and the address of the frame that it calls from. */
struct call {
    function function;
    const struct log *log;
    const struct sheet *sheet;
    const uint8_t *frame;
    yr_answer answer;
};

static yr_answer use_nothing(const struct log *log, const struct sheet *sheet)
{
    (void)log;
    (void)sheet;
    return 0;
}

static yr_answer use_known_amount(const struct log *log, const struct sheet *sheet)
{
    volatile uint8_t bytes[KNOWN_USE];
    for (size_t i = 0; i < sizeof bytes; i++)
        bytes[i] = (uint8_t)i;
    (void)sheet;
    return bytes[log->length % sizeof bytes];
}

static yr_answer use_check(const struct log *log, const struct sheet *sheet)
{
    (void)sheet;
    return yr_check(log->bytes, log->length);
}

static yr_answer use_replay(const struct log *log, const struct sheet *sheet)
{
    return yr_replay(log->bytes, log->length, sheet->bytes, sheet->length);
}

/* What the entries that write are lent. */
static uint8_t written[YR_LOG_MAX];

static yr_answer use_judge(const struct log *log, const struct sheet *sheet)
{
    (void)sheet;
    return yr_judge(log->bytes, log->length, written, YR_SHEET_MAX);
}

static yr_answer use_excerpt(const struct log *log, const struct sheet *sheet)
{
    (void)sheet;
    return yr_excerpt(log->bytes, log->length, written, sizeof written);
}

/* All values of the logs and more, the highest first. */
static uint32_t values[2 * YR_MAX_RECORDS];

static yr_answer use_narrow(const struct log *log, const struct sheet *sheet)
{
    (void)sheet;
    for (size_t i = 0; i < sizeof values / sizeof *values; i++)
        values[i] = (uint32_t)(sizeof values / sizeof *values - 1 - i);
    return yr_narrow(log->bytes, log->length, values, sizeof values / sizeof *values, written,
                     sizeof written);
}

static yr_answer use_page(const struct log *log, const struct sheet *sheet)
{
    (void)sheet;
    return yr_page(log->bytes, log->length, written, YR_PAGE_MAX);
}

/* What the entries of sessions are lent. */
static struct held held;

static yr_answer use_begin(const struct log *log, const struct sheet *sheet)
{
    (void)log;
    (void)sheet;
    return yr_begin(&held.session, held.bytes, sizeof held.bytes);
}

/* Feeds the last record of the log to the session that holds the others. */
static yr_answer use_feed(const struct log *log, const struct sheet *sheet)
{
    (void)sheet;
    hold(&held, YR_OPEN, log, log->records - 1);
    const uint8_t *record = log->bytes + held.session.used;
    return yr_feed(&held.session, held.bytes, sizeof held.bytes, record, 1u + record[0]);
}

static yr_answer use_close(const struct log *log, const struct sheet *sheet)
{
    (void)sheet;
    hold(&held, YR_OPEN, log, log->records);
    return yr_close(&held.session, held.bytes, sizeof held.bytes, written, YR_SHEET_MAX);
}

static yr_answer use_sheet(const struct log *log, const struct sheet *sheet)
{
    (void)sheet;
    hold(&held, YR_CLOSED, log, log->records);
    return yr_sheet(&held.session, held.bytes, sizeof held.bytes, written, YR_SHEET_MAX);
}

static yr_answer use_session_excerpt(const struct log *log, const struct sheet *sheet)
{
    (void)sheet;
    hold(&held, YR_CLOSED, log, log->records);
    return yr_session_excerpt(&held.session, held.bytes, sizeof held.bytes, written,
                              sizeof written);
}

static void *run(void *argument)
{
    struct call *call = argument;
    volatile uint8_t here = 0;
    call->frame = (const uint8_t *)&here;
    call->answer = call->function(call->log, call->sheet);
    return NULL;
}

static void require(int holds, const char *what)
{
    if (!holds) {
        printf("failed: %s\n0 passed, 1 failed\n", what);
        exit(1);
    }
}

/* Makes the call on a painted stack; how many bytes below the calling frame were touched. */
static size_t measure(struct call *call)
{
    pthread_attr_t attributes;
    pthread_t thread;
    void *memory;
    size_t untouched = 0;

    require(posix_memalign(&memory, ALIGNMENT, STACK_SIZE) == 0, "posix_memalign");
    uint8_t *stack = memory;
    memset(stack, PAINT, STACK_SIZE);
    require(pthread_attr_init(&attributes) == 0, "pthread_attr_init");
    require(pthread_attr_setstack(&attributes, stack, STACK_SIZE) == 0, "pthread_attr_setstack");
    require(pthread_create(&thread, &attributes, run, call) == 0, "pthread_create");
    require(pthread_join(thread, NULL) == 0, "pthread_join");
    while (untouched < STACK_SIZE && stack[untouched] == PAINT)
        untouched++;
    size_t used = (size_t)(call->frame - (stack + untouched));
    pthread_attr_destroy(&attributes);
    free(memory);
    return used;
}

static void measure_method(const struct log *log, const struct sheet *sheet)
{
    struct call nothing = {use_nothing, log, sheet, NULL, 0};
    struct call known = {use_known_amount, log, sheet, NULL, 0};
    size_t least = measure(&nothing);
    size_t used = measure(&known);
    printf("an empty function: %lu bytes\n", (unsigned long)least);
    printf("a function that uses %d bytes: %lu bytes\n", KNOWN_USE, (unsigned long)used);
    count(least < KNOWN_USE, "the thread itself uses less than the known amount");
    count(used >= KNOWN_USE && used < KNOWN_USE + 512, "the known amount is found");
}

/* An entry of the library and the stack that it may use, which is said in words too. */
struct entry {
    const char *name;
    function function;
    size_t limit;
    const char *promise;
};

static const struct entry check = {
    "yr_check", use_check, 16 * 1024, "yr_check stays under 16 KiB of stack"};
static const struct entry replay = {
    "yr_replay", use_replay, 64 * 1024, "yr_replay stays under 64 KiB of stack"};
static const struct entry judge = {
    "yr_judge", use_judge, 64 * 1024, "yr_judge stays under 64 KiB of stack"};
static const struct entry excerpt = {
    "yr_excerpt", use_excerpt, 64 * 1024, "yr_excerpt stays under 64 KiB of stack"};
static const struct entry narrow = {
    "yr_narrow", use_narrow, 64 * 1024, "yr_narrow stays under 64 KiB of stack"};
static const struct entry page = {
    "yr_page", use_page, 64 * 1024, "yr_page stays under 64 KiB of stack"};
static const struct entry begin = {
    "yr_begin", use_begin, 16 * 1024, "yr_begin stays under 16 KiB of stack"};
static const struct entry feed = {
    "yr_feed", use_feed, 16 * 1024, "yr_feed stays under 16 KiB of stack"};
static const struct entry close_session = {
    "yr_close", use_close, 64 * 1024, "yr_close stays under 64 KiB of stack"};
static const struct entry session_sheet = {
    "yr_sheet", use_sheet, 64 * 1024, "yr_sheet stays under 64 KiB of stack"};
static const struct entry session_excerpt = {
    "yr_session_excerpt", use_session_excerpt, 64 * 1024,
    "yr_session_excerpt stays under 64 KiB of stack"};

/* Measures an entry on a log and a sheet, which must be answered as told. */
static void measure_entry(const struct entry *entry, const struct log *log,
                          const struct sheet *sheet, uint32_t refusal, uint32_t value,
                          const char *name)
{
    struct call call = {entry->function, log, sheet, NULL, 0};
    size_t used = measure(&call);
    printf("%s, %s: %lu bytes\n", entry->name, name, (unsigned long)used);
    expect_answer(call.answer, refusal, value, name);
    count(used < entry->limit, entry->promise);
}

/* How many bytes the log has once its empty removes are left out, and a remove that does not return:
   narrowed to all values. */
static uint32_t length_of_values(const struct log *log)
{
    size_t length = log->length, removes = 0, returned = 0;
    for (size_t at = 3; at < log->length; at += 1u + log->bytes[at]) {
        unsigned kind = log->bytes[at + 1];
        removes += kind == CALL_REMOVE;
        returned += kind == RETURN_VALUE || kind == RETURN_EMPTY;
        if (kind == RETURN_EMPTY)
            length -= 2 * (1 + 7);
    }
    return (uint32_t)(length - (removes - returned) * (1 + 7));
}

/* The bytes of a page for each operation. */
#define PAGE_LINE (YR_PAGE_MAX / YR_PAGE_RECORDS)

/* Measures the page of a readable log of so many operations, which is refused if the log has too many
   records. */
static void measure_page(const struct log *log, uint32_t operations, const char *name)
{
    if (log->records > YR_PAGE_RECORDS)
        measure_entry(&page, log, NULL, YR_REFUSAL_PAGE, 0, name);
    else
        measure_entry(&page, log, NULL, 0, PAGE_LINE * operations, name);
}

/* Measures the entries of sessions on a readable log. So many operations are listed, and this is the
   answer for the excerpt. */
static void measure_session(const struct log *log, uint32_t listed, uint32_t refusal, uint32_t kept,
                            const char *name)
{
    measure_entry(&begin, log, NULL, 0, 3, name);
    if (log->records > 0) {
        uint32_t last = (uint32_t)(log->length - log_start(log, log->records - 1));
        measure_entry(&feed, log, NULL, 0, last, name);
    }
    measure_entry(&close_session, log, NULL, 0, SHEET_HEADER + 2 * listed, name);
    measure_entry(&session_sheet, log, NULL, 0, SHEET_HEADER + 2 * listed, name);
    measure_entry(&session_excerpt, log, NULL, refusal, kept, name);
}

/* Measures all entries on a log of a correct queue, with an order that is legal. The judge lists so
   many of its operations. */
static void measure_all(const struct log *log, const struct sheet *order, uint32_t operations,
                        uint32_t listed, const char *name)
{
    measure_entry(&check, log, order, 0, operations, name);
    measure_entry(&replay, log, order, 0, 1, name);
    measure_entry(&judge, log, order, 0, SHEET_HEADER + 2 * listed, name);
    measure_entry(&excerpt, log, order, YR_REFUSAL_ORDER, 0, name);
    measure_entry(&narrow, log, order, 0, length_of_values(log), name);
    measure_page(log, operations, name);
    measure_session(log, listed, YR_REFUSAL_ORDER, 0, name);
}

/* Measures the entries that write on a log with a pattern that lists so many operations. So many
   bytes of the log are the excerpt. */
static void measure_pattern(const struct log *log, uint32_t listed, uint32_t kept, const char *name)
{
    measure_entry(&judge, log, NULL, 0, SHEET_HEADER + 2 * listed, name);
    measure_entry(&excerpt, log, NULL, 0, kept, name);
    measure_entry(&narrow, log, NULL, 0, length_of_values(log), name);
    measure_session(log, listed, 0, kept, name);
}

static void measure_patterns(struct log *log, struct sheet *order)
{
    static const char *names[] = {
        "",
        "pattern 1 at the end",
        "pattern 2 at the end",
        "pattern 3 at the end",
        "pattern 4 at the end",
        "pattern 5 at the end",
        "pattern 6 at the end",
    };
    static const uint32_t listed[] = {0, 1, 2, 2, 3, 4, 2};
    for (unsigned pattern = 1; pattern <= 6; pattern++) {
        static struct log kept;
        log_late_pattern(log, order, pattern);
        log_begin(&kept);
        log_occurrence(&kept, pattern);
        measure_pattern(log, listed[pattern], (uint32_t)kept.length, names[pattern]);
    }
    log_relay(log, order, 170, 170, LAST_FALSE);
    measure_pattern(log, 171, length_of_values(log) + 2 * (1 + 7),
                    "170 empty removes over 170 values, the last one false");
}

/* Measures the entries that write on a log with an open remove. The sheet lists so many operations. */
static void measure_open(const struct log *log, uint32_t listed, const char *name)
{
    measure_entry(&judge, log, NULL, 0, SHEET_HEADER + 2 * listed, name);
    measure_entry(&excerpt, log, NULL, YR_REFUSAL_UNRETURNED, 0, name);
    measure_entry(&narrow, log, NULL, 0, length_of_values(log), name);
    measure_session(log, listed, YR_REFUSAL_UNRETURNED, 0, name);
}

/* The same with a legal order of so many operations, for replay as well. */
static void measure_taken(const struct log *log, const struct sheet *order, uint32_t operations,
                          const char *name)
{
    measure_entry(&check, log, order, 0, operations, name);
    measure_entry(&replay, log, order, 0, 1, name);
    measure_open(log, operations, name);
}

/* Logs for which the judge has to try what an open remove took: with success, and in vain. */
static void measure_open_removes(struct log *log, struct sheet *order)
{
    log_late_pattern_open(log, order, 4, OPEN_BEFORE);
    measure_taken(log, order, 512, "8 clients at work, and an open remove of a stuck value");
    log_late_pattern_open(log, order, 6, OPEN_BEFORE);
    measure_taken(log, order, 512, "8 clients at work, and an open remove of a covering value");
    log_relay_open(log, order, 170, 170, LAST_TRUE);
    measure_taken(log, order, 510, "170 empty removes over 170 values, the last one taken");
    log_late_pattern_open(log, order, 4, OPEN_AFTER);
    measure_open(log, 3, "pattern 4, and an open remove that does not help");
    log_late_pattern_open(log, order, 6, OPEN_AFTER);
    measure_open(log, 2, "pattern 6, and an open remove that does not help");
    log_relay_open(log, order, 170, 170, LAST_FALSE);
    measure_open(log, 171, "170 empty removes over 170 values, and an open remove in vain");
    log_pending_adds(log, 1023);
    log_record(log, CALL_REMOVE, 1023, 0);
    measure_open(log, 0, "1,023 adds that never return and a remove that does not");
}

/* Adds that do not return and removes of their values, for the longest sheet. */
static void measure_longest_sheet(struct log *log, struct sheet *order)
{
    log_pending_adds(log, 341);
    for (unsigned i = 0; i < 341; i++) {
        log_record(log, CALL_REMOVE, 341, 0);
        log_record(log, RETURN_VALUE, 341, i);
    }
    sheet_call_order(order, 682);
    measure_all(log, order, 682, 682, "341 adds that do not return, all removed");
}

/* The longest page with the longest values: each has ten digits, which nested calls write. */
static void measure_page_of_digits(struct log *log)
{
    log_begin(log);
    for (unsigned i = 0; i < YR_PAGE_RECORDS; i++)
        log_record(log, CALL_ADD, i, 4294967295u - i);
    measure_page(log, YR_PAGE_RECORDS, "63 adds of ten digits that never return");
}

/* Logs that have a page: the longest page, a run of 8 clients, and one of many empty removes. */
static void measure_pages(struct log *log, struct sheet *order)
{
    log_pending_adds(log, YR_PAGE_RECORDS);
    sheet_begin(order);
    measure_all(log, order, YR_PAGE_RECORDS, 0, "63 adds that never return");
    measure_page_of_digits(log);
    log_simulate_page(log, order);
    measure_all(log, order, 32, 31, "63 records, 8 clients at work");
    log_relay(log, order, 10, 10, LAST_FALSE);
    measure_page(log, 30, "10 empty removes over 10 values, the last one false");
}

/* Measures all entries on a log that is refused; replay with an order and with a sheet that is
   none. */
static void measure_refused(const struct log *log, struct sheet *sheet, uint32_t refusal,
                            uint32_t index, const char *name)
{
    measure_entry(&check, log, sheet, refusal, index, name);
    measure_entry(&judge, log, sheet, refusal, index, name);
    measure_entry(&excerpt, log, sheet, refusal, index, name);
    measure_entry(&narrow, log, sheet, refusal, index, name);
    measure_entry(&page, log, sheet, refusal, index, name);
    sheet_call_order(sheet, YR_MAX_RECORDS);
    measure_entry(&replay, log, sheet, refusal, index, name);
    sheet->length--;
    measure_entry(&replay, log, sheet, refusal, index, name);
}

static void measure_refused_logs(struct log *log, struct sheet *sheet)
{
    log_pending_adds(log, 1023);
    log_record(log, CALL_ADD, 1023, 0);
    measure_refused(log, sheet, YR_REFUSAL_VALUE, 1023, "the last of 1,024 adds repeats a value");
    log_pending_adds(log, 1022);
    log_record(log, CALL_REMOVE, 1022, 0);
    log_record(log, CALL_REMOVE, 1023, 0);
    measure_refused(log, sheet, YR_REFUSAL_PENDING_REMOVE, 1023, "two removes that never return");
}

/* Measures the entries of sessions where they refuse. */
static void measure_refused_sessions(struct log *log)
{
    log_pending_adds(log, 1023);
    log_record(log, CALL_ADD, 1023, 0);
    measure_entry(&feed, log, NULL, YR_REFUSAL_VALUE, 1023, "the 1,024th add repeats a value");
    measure_entry(&close_session, log, NULL, YR_REFUSAL_SESSION, 0, "a value is held twice");
    measure_entry(&session_sheet, log, NULL, YR_REFUSAL_SESSION, 0, "a value is held twice");
    measure_entry(&session_excerpt, log, NULL, YR_REFUSAL_SESSION, 0, "a value is held twice");
    log_pending_adds(log, 1025);
    measure_entry(&feed, log, NULL, YR_REFUSAL_FULL, 0, "the 1,025th add");
    log_pending_adds(log, 1022);
    log_record(log, CALL_REMOVE, 1022, 0);
    log_record(log, CALL_REMOVE, 1023, 0);
    measure_entry(&feed, log, NULL, 0, 1 + 7, "two removes that never return");
    measure_entry(&close_session, log, NULL, YR_REFUSAL_PENDING_REMOVE, 1023,
                  "two removes that never return");
}

/* Sheets for 512 operations of a correct queue that are not legal, or not even an order. */
static void measure_other_sheets(struct log *log, struct sheet *sheet)
{
    log_simulate(log, sheet, CLIENTS_REUSED);
    sheet_list(sheet, 512);
    measure_entry(&replay, log, sheet, 0, 0, "one operation too many");
    sheet_call_order(sheet, 511);
    measure_entry(&replay, log, sheet, 0, 0, "511 operations in the order of their calls");
    sheet_call_order(sheet, SHEET_OPERATIONS);
    measure_entry(&replay, log, sheet, 0, 0, "65,535 operations listed");
    sheet->length--;
    measure_entry(&replay, log, sheet, YR_REFUSAL_SHEET, 0, "a sheet of a byte less");
}

int main(void)
{
    static struct log log;
    static struct sheet order;

    log_begin(&log);
    sheet_begin(&order);
    measure_method(&log, &order);
    measure_all(&log, &order, 0, 0, "no records");
    log_pending_adds(&log, 1024);
    measure_all(&log, &order, 1024, 0, "1,024 adds that never return");
    sheet_call_order(&order, 1024);
    measure_entry(&replay, &log, &order, 0, 1, "1,024 adds that never return, all listed");
    log_calls_then_returns(&log, &order);
    measure_all(&log, &order, 512, 512, "512 calls, then their returns");
    log_one_tick(&log, &order);
    measure_all(&log, &order, 512, 512, "512 calls, then their returns, all of one tick");
    log_simulate(&log, &order, CLIENTS_REUSED);
    measure_all(&log, &order, 512, 512, "8 clients at work");
    log_simulate_by(&log, &order, CLIENTS_REUSED, MOST_WORKERS);
    measure_all(&log, &order, 512, 512, "64 clients at work");
    log_simulate(&log, &order, CLIENT_PER_OPERATION);
    measure_all(&log, &order, 512, 512, "a client for each operation");
    log_relay(&log, &order, 170, 170, LAST_TRUE);
    measure_all(&log, &order, 510, 510, "170 empty removes over 170 values");
    measure_longest_sheet(&log, &order);
    measure_pages(&log, &order);
    measure_patterns(&log, &order);
    measure_open_removes(&log, &order);
    measure_other_sheets(&log, &order);
    measure_refused_logs(&log, &order);
    measure_refused_sessions(&log);
    return counted();
}
