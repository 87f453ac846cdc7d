/*
 * yr_excerpt through the header, as a program in C uses it. Prints a line for each check that fails
 * and last 'N passed, M failed'; the exit status is 0 only if none failed.
 */

#include <string.h>

#include "count.h"
#include "lent.h"
#include "logs.h"
#include "sheets.h"
#include "yauponroof.h"

static struct log run, run_before, kept;
static struct sheet order;
static uint8_t out[YR_LOG_MAX + 32];

/* Makes the excerpt of `run` in so many bytes, all of which are FILL before. */
static yr_answer excerpt(size_t length)
{
    memset(out, FILL, sizeof out);
    run_before = run;
    yr_answer answer = yr_excerpt(run.bytes, run.length, out, length);
    count(memcmp(&run, &run_before, sizeof run) == 0, "the log is unchanged");
    return answer;
}

/* The verdict on a log, which must be readable. */
static unsigned verdict(const uint8_t *log, size_t length)
{
    uint8_t sheet[YR_SHEET_MAX] = {0};
    yr_answer answer = yr_judge(log, length, sheet, sizeof sheet);
    count(YR_REFUSED(answer) == 0, "the log is judged");
    return sheet_verdict(sheet);
}

/* Expects the excerpt of `run` to be `kept`, and both to have this pattern. */
static void expect_kept(unsigned pattern, const char *what)
{
    expect_answer(excerpt(kept.length), 0, (uint32_t)kept.length, what);
    count(memcmp(out, kept.bytes, kept.length) == 0, what);
    count(is_filled(out, kept.length, sizeof out), "the bytes behind the excerpt are unchanged");
    count(verdict(run.bytes, run.length) == pattern, "the log has the pattern");
    count(verdict(out, kept.length) == pattern, "the excerpt has the pattern");
    expect_answer(excerpt(kept.length - 1), YR_REFUSAL_BUFFER, 0, "a byte less than needed");
    count(is_filled(out, 0, sizeof out), "nothing is written to a buffer that is too short");
}

/* Expects this refusal of `run`, with a buffer that is long enough and with one of no bytes. */
static void expect_refused(uint32_t refusal, uint32_t index, const char *what)
{
    expect_answer(excerpt(YR_LOG_MAX), refusal, index, what);
    count(is_filled(out, 0, sizeof out), "a refused call writes nothing");
    expect_answer(excerpt(0), refusal, index, what);
    count(is_filled(out, 0, sizeof out), "a refused call writes nothing");
}

/* Begins `run` and `kept`. */
static void begin(void)
{
    log_begin(&run);
    log_begin(&kept);
}

/* Appends a record to `run`. */
static void left_out(enum kind kind, unsigned client, uint32_t value)
{
    log_record(&run, kind, client, value);
}

/* Appends a record to `run`, and the same bytes to `kept`. */
static void is_kept(enum kind kind, unsigned client, uint32_t value)
{
    size_t start = run.length;
    log_record(&run, kind, client, value);
    memcpy(kept.bytes + kept.length, run.bytes + start, run.length - start);
    kept.length += run.length - start;
    log_set_n(&kept, ++kept.records);
}

static void check_unknown(void)
{
    begin();
    left_out(CALL_ADD, 1, 7);
    is_kept(CALL_REMOVE, 2, 0);
    is_kept(RETURN_VALUE, 2, 9);
    left_out(RETURN_ADD, 1, 0);
    is_kept(CALL_REMOVE, 300, 0);
    is_kept(RETURN_VALUE, 300, 9);
    expect_kept(1, "all removes of the value that no add names");
}

static void check_stuck(void)
{
    begin();
    left_out(CALL_REMOVE, 3, 0);
    is_kept(CALL_ADD, 1, 0);
    is_kept(RETURN_ADD, 1, 0);
    left_out(RETURN_EMPTY, 3, 0);
    is_kept(CALL_ADD, 1, 8);
    left_out(CALL_ADD, 2, 5);
    is_kept(CALL_REMOVE, 3, 0);
    is_kept(RETURN_VALUE, 3, 8);
    expect_kept(4, "the operations on both values, of which one add does not return");
}

static void check_false_empty(void)
{
    begin();
    is_kept(CALL_ADD, 1, 1);
    is_kept(RETURN_ADD, 1, 0);
    is_kept(CALL_REMOVE, 2, 0);
    left_out(CALL_REMOVE, 3, 0);
    is_kept(CALL_ADD, 1, 2);
    is_kept(RETURN_ADD, 1, 0);
    is_kept(CALL_REMOVE, 4, 0);
    is_kept(RETURN_VALUE, 4, 1);
    left_out(CALL_ADD, 1, 3);
    left_out(RETURN_EMPTY, 3, 0);
    is_kept(RETURN_EMPTY, 2, 0);
    left_out(RETURN_ADD, 1, 0);
    is_kept(CALL_REMOVE, 2, 0);
    is_kept(RETURN_VALUE, 2, 2);
    expect_kept(6, "the chain's values and the first empty remove, not the second");
}

static void check_refused(void)
{
    begin();
    left_out(CALL_ADD, 1, 7);
    left_out(RETURN_ADD, 1, 0);
    expect_refused(YR_REFUSAL_ORDER, 0, "the verdict is an order");
    left_out(CALL_REMOVE, 2, 0);
    left_out(CALL_REMOVE, 3, 0);
    expect_refused(YR_REFUSAL_PENDING_REMOVE, 3, "a second remove without return");
    run.length--;
    expect_refused(YR_REFUSAL_BYTES, 3, "the bytes end inside record 3");
    log_simulate(&run, &order, CLIENTS_REUSED);
    expect_refused(YR_REFUSAL_ORDER, 0, "a run of 8 clients");
}

/* There is no excerpt of a log with an open remove, whatever the verdict. */
static void check_pending_remove(void)
{
    count(YR_REFUSAL_UNRETURNED == 32, "YR_REFUSAL_UNRETURNED");
    begin();
    left_out(CALL_REMOVE, 3, 0);
    expect_refused(YR_REFUSAL_UNRETURNED, 0, "a lone open remove");
    left_out(CALL_ADD, 1, 7);
    left_out(RETURN_ADD, 1, 0);
    left_out(CALL_REMOVE, 1, 0);
    left_out(RETURN_EMPTY, 1, 0);
    count(verdict(run.bytes, run.length) == 0, "the open remove took 7");
    expect_refused(YR_REFUSAL_UNRETURNED, 0, "the verdict is an order with the open remove");
    left_out(CALL_REMOVE, 2, 0);
    left_out(RETURN_VALUE, 2, 9);
    count(verdict(run.bytes, run.length) == 1, "nobody added 9");
    expect_refused(YR_REFUSAL_UNRETURNED, 0, "the verdict is a pattern");
    for (unsigned pattern = 1; pattern <= 6; pattern++) {
        log_late_pattern_open(&run, &order, pattern, OPEN_AFTER);
        count(verdict(run.bytes, run.length) == pattern, "a pattern at the end");
        expect_refused(YR_REFUSAL_UNRETURNED, 0, "a pattern at the end, and an open remove");
    }
}

static void check_large(void)
{
    for (unsigned pattern = 1; pattern <= 6; pattern++) {
        log_late_pattern(&run, &order, pattern);
        yr_answer answer = excerpt(YR_LOG_MAX);
        count(YR_REFUSED(answer) == 0 && YR_VALUE(answer) < 100, "a few records are kept");
        count(verdict(out, YR_VALUE(answer)) == pattern, "a pattern at the end");
    }
    log_relay(&run, &order, 170, 170, LAST_FALSE);
    yr_answer answer = excerpt(YR_LOG_MAX);
    expect_answer(answer, 0, 3 + 170 * 40 + 16, "170 values and one empty remove of 170");
    count(verdict(out, YR_VALUE(answer)) == 6, "a long chain");
}

int main(void)
{
    check_unknown();
    check_stuck();
    check_false_empty();
    check_refused();
    check_pending_remove();
    check_large();
    return counted();
}
