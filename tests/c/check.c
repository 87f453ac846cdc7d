/*
 * yr_check through the header, as a program in C uses it. Prints a line for each check that fails
 * and last 'N passed, M failed'; the exit status is 0 only if none failed.
 */

#include <stdio.h>
#include <string.h>

#include "count.h"
#include "logs.h"
#include "yauponroof.h"

static void expect_bytes(const uint8_t *bytes, size_t length, uint32_t refusal, uint32_t value,
                         const char *what)
{
    expect_answer(yr_check(bytes, length), refusal, value, what);
}

static void expect_log(const struct log *log, uint32_t refusal, uint32_t value, const char *what)
{
    expect_bytes(log->bytes, log->length, refusal, value, what);
}

static void check_macros(void)
{
    yr_answer answer = (yr_answer)10 << 32 | 0xFFFFFFFEu;
    expect_answer(answer, 10, 0xFFFFFFFEu, "the parts of an answer are told apart");
    count(YR_REFUSED((yr_answer)1023) == 0, "an answer without refusal is accepted");
    count(YR_LOG_MAX == 3 + 12 * YR_MAX_RECORDS, "YR_LOG_MAX is the longest log");
    count(YR_SHEET_MAX == 4 + 2 * (2 * (YR_MAX_RECORDS / 3)),
          "YR_SHEET_MAX is the longest sheet: an add and its remove have three records");
    count(sizeof(yr_answer) == 8, "an answer has 64 bits");
}

static void check_version(void)
{
    char numbers[32];
    snprintf(numbers, sizeof numbers, "%d.%d.%d", YR_VERSION_MAJOR, YR_VERSION_MINOR,
             YR_VERSION_PATCH);
    count(strcmp(numbers, YR_VERSION) == 0, "YR_VERSION is made of its three numbers");
}

static void check_headers(void)
{
    const uint8_t empty[] = {1, 0, 0};
    const uint8_t version[] = {2, 0, 0};
    const uint8_t records[] = {1, 4, 1};
    const uint8_t left[] = {1, 0, 0, 0};
    const uint8_t no_record[] = {1, 0, 1};
    expect_bytes(empty, 0, YR_REFUSAL_BYTES, 0, "no bytes");
    expect_bytes(empty, 2, YR_REFUSAL_BYTES, 0, "2 bytes");
    expect_bytes(empty, sizeof empty, 0, 0, "no records");
    expect_bytes(version, sizeof version, YR_REFUSAL_VERSION, 0, "version 2");
    expect_bytes(records, sizeof records, YR_REFUSAL_RECORDS, 0, "1,025 records");
    expect_bytes(left, sizeof left, YR_REFUSAL_BYTES, 0, "a byte behind no records");
    expect_bytes(no_record, sizeof no_record, YR_REFUSAL_BYTES, 0, "the bytes end before record 0");
}

static void check_single_records(void)
{
    const uint8_t no_length[] = {1, 0, 1, 0};
    const uint8_t kind[] = {1, 0, 1, 3, 9, 0, 0};
    const uint8_t length[] = {1, 0, 1, 7, 1, 0, 1, 0, 0, 0, 1};
    const uint8_t cut[] = {1, 0, 1, 7, 2, 0, 1, 0, 0, 0};
    expect_bytes(no_length, sizeof no_length, YR_REFUSAL_LENGTH, 0, "L is 0");
    expect_bytes(kind, sizeof kind, YR_REFUSAL_KIND, 0, "kind 9");
    expect_bytes(length, sizeof length, YR_REFUSAL_LENGTH, 0, "a call of add with L = 7");
    expect_bytes(cut, sizeof cut, YR_REFUSAL_BYTES, 0, "the bytes end inside record 0");
}

static void check_records(void)
{
    struct log log;

    log_begin(&log);
    log_record(&log, CALL_ADD, 1, 7);
    log_record(&log, RETURN_ADD, 1, 0);
    log_record(&log, CALL_REMOVE, 1, 0);
    log_record(&log, RETURN_VALUE, 1, 7);
    expect_log(&log, 0, 2, "an add and a remove");

    log_record(&log, CALL_ADD, 2, 7);
    expect_log(&log, YR_REFUSAL_VALUE, 4, "7 is added again");

    log_begin(&log);
    log_record(&log, CALL_ADD, 1, 7);
    log_record(&log, CALL_REMOVE, 1, 0);
    expect_log(&log, YR_REFUSAL_CALL, 1, "client 1 calls while at work");

    log_begin(&log);
    log_record(&log, CALL_ADD, 1, 7);
    log_record(&log, RETURN_EMPTY, 1, 0);
    expect_log(&log, YR_REFUSAL_RETURN, 1, "an add returns as a remove");

    log_begin(&log);
    log_record(&log, CALL_ADD, 1, 7);
    log_record(&log, CALL_REMOVE, 2, 0);
    expect_log(&log, 0, 2, "one remove does not return");
    log_record(&log, CALL_REMOVE, 3, 0);
    expect_log(&log, YR_REFUSAL_PENDING_REMOVE, 2, "two removes do not return");
    log_record(&log, CALL_REMOVE, 0, 0);
    expect_log(&log, YR_REFUSAL_PENDING_REMOVE, 2, "three removes do not return");
    log_record(&log, RETURN_EMPTY, 2, 0);
    expect_log(&log, YR_REFUSAL_PENDING_REMOVE, 3, "the first of three returns");

    log_byte(&log, 0);
    expect_log(&log, YR_REFUSAL_BYTES, 5, "a byte is left behind record 4");

    log_begin(&log);
    log_record(&log, CALL_ADD, 1, 7);
    log_record(&log, CALL_ADD, 2, 8);
    log.bytes[3 + 7] = 2;
    expect_log(&log, YR_REFUSAL_TICK, 1, "the tick falls from 2 to 1");
    log.bytes[3 + 7] = 1;
    expect_log(&log, 0, 2, "the tick stays 1");
}

/* Calls at the tick of a return: of the client's own last one, and of others. */
static void check_repeated_ticks(void)
{
    struct log log;

    log_begin(&log);
    log_record(&log, CALL_ADD, 1, 7);
    log_record(&log, RETURN_ADD, 1, 0);
    log_record(&log, CALL_ADD, 1, 8);
    expect_log(&log, 0, 2, "client 1 calls one tick after its return");
    log_join(&log, 2);
    expect_log(&log, YR_REFUSAL_TICK_REPEATED, 2, "client 1 calls at the tick of its return");
    log.bytes[log_start(&log, 2) + 3] = 2;
    expect_log(&log, 0, 2, "client 2 calls at that tick");

    log_begin(&log);
    log_record(&log, CALL_ADD, 1, 7);
    log_record(&log, RETURN_ADD, 1, 0);
    log_record(&log, CALL_ADD, 1, 7);
    expect_log(&log, YR_REFUSAL_VALUE, 2, "7 is added again");
    log_join(&log, 2);
    expect_log(&log, YR_REFUSAL_TICK_REPEATED, 2, "7 is added again, at the tick of the return");

    log_begin(&log);
    log_record(&log, CALL_REMOVE, 1, 0);
    log_record(&log, RETURN_EMPTY, 1, 0);
    log_record(&log, CALL_REMOVE, 2, 0);
    log_record(&log, CALL_REMOVE, 1, 0);
    expect_log(&log, YR_REFUSAL_PENDING_REMOVE, 3, "two removes do not return");
    log_join_all(&log);
    expect_log(&log, YR_REFUSAL_TICK_REPEATED, 3, "client 1 called at the tick of its return");
}

static void check_largest(void)
{
    static struct log log, copy;
    static struct sheet order;

    log_pending_adds(&log, YR_MAX_RECORDS);
    copy = log;
    count(log.length == YR_LOG_MAX, "1,024 adds fill YR_LOG_MAX bytes");
    expect_log(&log, 0, 1024, "1,024 adds");
    count(memcmp(log.bytes, copy.bytes, log.length) == 0, "the log is unchanged");
    log_pending_adds(&log, YR_MAX_RECORDS + 1);
    expect_log(&log, YR_REFUSAL_RECORDS, 0, "1,025 adds");
    log_pending_adds(&log, YR_MAX_RECORDS - 1);
    log_record(&log, CALL_REMOVE, YR_MAX_RECORDS, 0);
    expect_log(&log, 0, 1024, "1,023 adds and a remove that does not return");
    log_pending_adds(&log, YR_MAX_RECORDS - 2);
    log_record(&log, CALL_REMOVE, YR_MAX_RECORDS, 0);
    log_record(&log, CALL_REMOVE, YR_MAX_RECORDS + 1, 0);
    expect_log(&log, YR_REFUSAL_PENDING_REMOVE, 1023, "1,022 adds and two such removes");
    log_pending_adds_of_slot(&log, YR_MAX_RECORDS);
    expect_log(&log, 0, 1024, "1,024 adds of values that share a slot");
    log_calls_then_returns(&log, &order);
    expect_log(&log, 0, 512, "512 calls, then their returns");
    log_one_tick(&log, &order);
    expect_log(&log, 0, 512, "512 calls, then their returns, all of one tick");
    log_simulate(&log, &order, CLIENTS_REUSED);
    expect_log(&log, 0, 512, "a run of 8 clients");
    log_simulate(&log, &order, CLIENT_PER_OPERATION);
    expect_log(&log, 0, 512, "a run with a client for each operation");
}

int main(void)
{
    check_macros();
    check_version();
    check_headers();
    check_single_records();
    check_records();
    check_repeated_ticks();
    check_largest();
    return counted();
}
