/*
 * yr_narrow through the header, as a program in C uses it. Prints a line for each check that fails
 * and last 'N passed, M failed'; the exit status is 0 only if none failed.
 */

#include <string.h>

#include "count.h"
#include "lent.h"
#include "logs.h"
#include "sheets.h"
#include "yauponroof.h"

/* What an empty remove is on: no value of the log. */
#define NONE 99

static struct log run, run_before, kept;
static struct sheet order;
static uint8_t out[YR_LOG_MAX + 32];

/* Narrows `run` in so many bytes, all of which are FILL before. */
static yr_answer narrow(const uint32_t *values, size_t number, size_t length)
{
    memset(out, FILL, sizeof out);
    run_before = run;
    yr_answer answer = yr_narrow(run.bytes, run.length, values, number, out, length);
    count(memcmp(&run, &run_before, sizeof run) == 0, "the log is unchanged");
    return answer;
}

/* Expects `run`, narrowed to the values, to be `kept`. */
static void expect_kept(const uint32_t *values, size_t number, const char *what)
{
    expect_answer(narrow(values, number, kept.length), 0, (uint32_t)kept.length, what);
    count(memcmp(out, kept.bytes, kept.length) == 0, what);
    count(is_filled(out, kept.length, sizeof out), "the bytes behind are unchanged");
    count(YR_REFUSED(yr_check(out, kept.length)) == 0, "what is written is readable");
    expect_answer(narrow(values, number, kept.length - 1), YR_REFUSAL_BUFFER, 0,
                  "a byte less than needed");
    count(is_filled(out, 0, sizeof out), "nothing is written to a buffer that is too short");
}

/* Writes `run`, and to `kept` the records of operations on the value. */
static void write_run(uint32_t value)
{
    /* What a record tells, and the value that its operation is on. */
    static const struct {
        enum kind kind;
        unsigned client;
        uint32_t told;
        uint32_t on;
    } records[] = {
        {CALL_ADD, 1, 5, 5},
        {CALL_ADD, 300, 0, 0},
        {RETURN_ADD, 300, 0, 0},
        {CALL_REMOVE, 2, 0, NONE},
        {CALL_REMOVE, 3, 0, 0},
        {RETURN_VALUE, 3, 0, 0},
        {RETURN_EMPTY, 2, 0, NONE},
        {CALL_REMOVE, 3, 0, 8},
        {RETURN_VALUE, 3, 8, 8},
    };
    log_begin(&run);
    log_begin(&kept);
    for (size_t i = 0; i < sizeof records / sizeof *records; i++) {
        size_t start = run.length;
        log_record(&run, records[i].kind, records[i].client, records[i].told);
        if (records[i].on != value)
            continue;
        memcpy(kept.bytes + kept.length, run.bytes + start, run.length - start);
        kept.length += run.length - start;
        log_set_n(&kept, ++kept.records);
    }
}

static void check_values(void)
{
    const uint32_t pending[] = {5};
    const uint32_t zero[] = {0};
    const uint32_t unknown[] = {8};
    const uint32_t repeated[] = {7, 0, 4294967295u, 0};
    write_run(5);
    expect_kept(pending, 1, "an add without return");
    write_run(0);
    expect_kept(zero, 1, "an add and a remove of the value 0, and no empty remove");
    expect_kept(repeated, 4, "a value twice, among others that the log lacks");
    write_run(8);
    expect_kept(unknown, 1, "a remove of a value that no add names");
    write_run(77);
    expect_kept(repeated, 0, "no value");
    expect_kept(repeated, 1, "a value that the log lacks");
}

/* Expects this refusal of `run`, with a buffer that is long enough and with one of no bytes. */
static void expect_refused(uint32_t refusal, uint32_t index, const char *what)
{
    const uint32_t values[] = {7};
    expect_answer(narrow(values, 1, YR_LOG_MAX), refusal, index, what);
    count(is_filled(out, 0, sizeof out), "a refused call writes nothing");
    expect_answer(narrow(values, 1, 0), refusal, index, what);
    count(is_filled(out, 0, sizeof out), "a refused call writes nothing");
}

static void check_large(void)
{
    static uint32_t values[YR_MAX_RECORDS];
    for (unsigned i = 0; i < YR_MAX_RECORDS; i++)
        values[i] = YR_MAX_RECORDS - 1 - i;

    log_pending_adds(&run, YR_MAX_RECORDS);
    kept = run;
    expect_kept(values, YR_MAX_RECORDS, "1,024 adds without return, to all values");
    log_pending_adds(&kept, YR_MAX_RECORDS / 2);
    expect_kept(values + YR_MAX_RECORDS / 2, YR_MAX_RECORDS / 2, "to the lower half of the values");

    log_calls_then_returns(&run, &order);
    kept = run;
    expect_kept(values, YR_MAX_RECORDS, "512 calls, then their returns, to all values");
    log_relay(&run, &order, 170, 170, LAST_FALSE);
    expect_answer(narrow(values, YR_MAX_RECORDS, YR_LOG_MAX), 0, 3 + 170 * 40,
                  "170 values, and none of 170 empty removes");
}

/* A remove that never returns is on no value. */
static void check_pending_remove(void)
{
    const uint32_t values[] = {7, 0};
    log_begin(&run);
    log_begin(&kept);
    log_record(&run, CALL_REMOVE, 3, 0);
    expect_kept(values, 2, "a lone open remove");
    log_begin(&run);
    log_record(&run, CALL_ADD, 1, 7);
    log_record(&run, RETURN_ADD, 1, 0);
    kept = run;
    log_record(&run, CALL_REMOVE, 3, 0);
    expect_kept(values, 2, "an add, and an open remove");
}

int main(void)
{
    check_values();
    check_pending_remove();
    log_each_refused(&run, expect_refused);
    check_large();
    return counted();
}
