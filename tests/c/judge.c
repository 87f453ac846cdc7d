/*
 * yr_judge through the header, as a program in C uses it. Prints a line for each check that fails
 * and last 'N passed, M failed'; the exit status is 0 only if none failed.
 */

#include <string.h>

#include "count.h"
#include "lent.h"
#include "logs.h"
#include "sheets.h"
#include "yauponroof.h"

/* What an accepted replay returns for a legal order. */
enum { YES = 1 };

static struct log run, run_before;
static struct sheet order;
static uint8_t sheet[YR_SHEET_MAX + 32];

/* Judges `run` with so many bytes of the sheet, all of which are FILL before. */
static yr_answer judge(size_t length)
{
    memset(sheet, FILL, sizeof sheet);
    run_before = run;
    yr_answer answer = yr_judge(run.bytes, run.length, sheet, length);
    count(memcmp(&run, &run_before, sizeof run) == 0, "the log is unchanged");
    return answer;
}

/* Expects this sheet of `run`, with just enough bytes for it and with one byte less. */
static void expect_sheet(const uint8_t *bytes, size_t length, const char *what)
{
    expect_answer(judge(length), 0, (uint32_t)length, what);
    count(memcmp(sheet, bytes, length) == 0, what);
    count(is_filled(sheet, length, sizeof sheet), "the bytes behind the sheet are unchanged");
    expect_answer(judge(length - 1), YR_REFUSAL_BUFFER, 0, "a byte less than needed");
    count(is_filled(sheet, 0, sizeof sheet), "nothing is written to a sheet that is too short");
}

/* Expects this refusal of `run`, with a sheet that is long enough and with one of no bytes. */
static void expect_refused(uint32_t refusal, uint32_t index, const char *what)
{
    expect_answer(judge(YR_SHEET_MAX), refusal, index, what);
    count(is_filled(sheet, 0, sizeof sheet), "nothing is written if the log is refused");
    expect_answer(judge(0), refusal, index, what);
}

/* Expects an order of so many operations for `run`, to which replay says yes. */
static void expect_order(unsigned listed, const char *what)
{
    yr_answer answer = judge(YR_SHEET_MAX);
    expect_answer(answer, 0, SHEET_HEADER + 2 * listed, what);
    count(sheet_verdict(sheet) == 0 && sheet_k(sheet) == listed, what);
    count(is_filled(sheet, YR_VALUE(answer), sizeof sheet), "the bytes behind the sheet are unchanged");
    expect_answer(yr_replay(run.bytes, run.length, sheet, YR_VALUE(answer)), 0, YES, what);
}

/* Expects a pattern of `run` that lists so many operations, the first of which is told. */
static void expect_pattern(unsigned pattern, unsigned listed, unsigned first, const char *what)
{
    expect_answer(judge(YR_SHEET_MAX), 0, SHEET_HEADER + 2 * listed, what);
    count(sheet_verdict(sheet) == pattern && sheet_k(sheet) == listed, what);
    count(sheet_u16(sheet + SHEET_HEADER) == first, what);
}

static void check_second_run(void)
{
    const uint8_t legal[] = {1, 0, 0, 2, 0, 0, 0, 1};
    log_begin(&run);
    memcpy(run.bytes, second_run, sizeof second_run);
    run.length = sizeof second_run;
    expect_sheet(legal, sizeof legal, "the add, then the remove");
}

static void check_pending_add(void)
{
    const uint8_t nothing[] = {1, 0, 0, 0};
    const uint8_t both[] = {1, 0, 0, 2, 0, 0, 0, 1};
    log_begin(&run);
    expect_sheet(nothing, sizeof nothing, "no records");
    log_record(&run, CALL_ADD, 1, 0);
    expect_sheet(nothing, sizeof nothing, "an add without return is not listed");
    log_record(&run, CALL_REMOVE, 2, 0);
    log_record(&run, RETURN_VALUE, 2, 0);
    expect_sheet(both, sizeof both, "an add without return whose value was removed is listed");
}

/* A remove that never returns: left out, then as the remove of a value. */
static void check_pending_remove(void)
{
    const uint8_t nothing[] = {1, 0, 0, 0};
    const uint8_t add_alone[] = {1, 0, 0, 1, 0, 1};
    const uint8_t taken[] = {1, 0, 0, 3, 0, 1, 0, 0, 0, 2};
    const uint8_t false_empty[] = {1, 6, 0, 2, 0, 1, 0, 0};
    log_begin(&run);
    log_record(&run, CALL_REMOVE, 3, 0);
    expect_sheet(nothing, sizeof nothing, "a lone open remove");
    log_record(&run, CALL_ADD, 1, 0);
    log_record(&run, RETURN_ADD, 1, 0);
    expect_sheet(add_alone, sizeof add_alone, "an open remove and an add of 0");
    log_record(&run, CALL_REMOVE, 1, 0);
    log_record(&run, RETURN_EMPTY, 1, 0);
    expect_sheet(taken, sizeof taken, "the open remove took the value before the empty one came");
    log_record(&run, CALL_REMOVE, 1, 0);
    expect_refused(YR_REFUSAL_PENDING_REMOVE, 5, "a second open remove");

    log_begin(&run);
    log_record(&run, CALL_ADD, 1, 0);
    log_record(&run, RETURN_ADD, 1, 0);
    log_record(&run, CALL_REMOVE, 1, 0);
    log_record(&run, RETURN_EMPTY, 1, 0);
    log_record(&run, CALL_REMOVE, 3, 0);
    expect_sheet(false_empty, sizeof false_empty, "an open remove that is called too late");
    log_join(&run, 4);
    expect_order(3, "an open remove that is called at the tick of the return");
}

static void check_patterns(void)
{
    const uint8_t unknown[] = {1, 1, 0, 1, 0, 0};
    const uint8_t twice[] = {1, 2, 0, 2, 0, 1, 0, 2};
    const uint8_t early[] = {1, 3, 0, 2, 0, 0, 0, 1};
    const uint8_t stuck[] = {1, 4, 0, 3, 0, 0, 0, 1, 0, 2};
    const uint8_t overtaken[] = {1, 5, 0, 4, 0, 0, 0, 1, 0, 2, 0, 3};
    const uint8_t false_empty[] = {1, 6, 0, 2, 0, 1, 0, 0};
    log_begin(&run);
    log_occurrence(&run, 1);
    expect_sheet(unknown, sizeof unknown, "pattern 1");
    log_begin(&run);
    log_occurrence(&run, 2);
    expect_sheet(twice, sizeof twice, "pattern 2");
    log_begin(&run);
    log_occurrence(&run, 3);
    expect_sheet(early, sizeof early, "pattern 3");
    log_begin(&run);
    log_occurrence(&run, 4);
    expect_sheet(stuck, sizeof stuck, "pattern 4");
    log_begin(&run);
    log_occurrence(&run, 5);
    expect_sheet(overtaken, sizeof overtaken, "pattern 5");
    log_begin(&run);
    log_occurrence(&run, 6);
    expect_sheet(false_empty, sizeof false_empty, "pattern 6");
}

/* Within a tick nothing precedes anything. */
static void check_equal_ticks(void)
{
    const uint8_t stuck[] = {1, 4, 0, 3, 0, 0, 0, 1, 0, 2};
    const uint8_t false_empty[] = {1, 6, 0, 2, 0, 1, 0, 0};
    log_begin(&run);
    log_record(&run, CALL_ADD, 1, 1);
    log_record(&run, RETURN_ADD, 1, 0);
    log_record(&run, CALL_ADD, 2, 2);
    log_record(&run, RETURN_ADD, 2, 0);
    log_record(&run, CALL_REMOVE, 3, 0);
    log_record(&run, RETURN_VALUE, 3, 2);
    expect_sheet(stuck, sizeof stuck, "the add of 1 returns before that of 2 is called");
    log_join(&run, 2);
    expect_order(3, "the add of 1 returns at the tick at which that of 2 is called");

    log_begin(&run);
    log_record(&run, CALL_ADD, 1, 1);
    log_record(&run, RETURN_ADD, 1, 0);
    log_record(&run, CALL_REMOVE, 2, 0);
    log_record(&run, RETURN_EMPTY, 2, 0);
    expect_sheet(false_empty, sizeof false_empty, "an empty remove behind an add");
    log_join(&run, 3);
    expect_sheet(false_empty, sizeof false_empty, "an empty remove within one tick");
    log_join(&run, 2);
    expect_order(2, "an empty remove is called at the tick at which the add returns");
}

static void check_refused_logs(void)
{
    log_begin(&run);
    log_record(&run, CALL_ADD, 1, 7);
    log_record(&run, RETURN_ADD, 1, 0);
    log_record(&run, CALL_ADD, 1, 7);
    expect_refused(YR_REFUSAL_VALUE, 2, "7 is added again");

    log_each_refused(&run, expect_refused);

    log_begin(&run);
    run.length = 2;
    expect_refused(YR_REFUSAL_BYTES, 0, "a log of 2 bytes");
}

/* Every pattern is found at the end of 1,024 records. */
static void check_late_patterns(void)
{
    static const unsigned listed[] = {0, 1, 2, 2, 3, 4, 2};
    for (unsigned pattern = 1; pattern <= 6; pattern++) {
        log_late_pattern(&run, &order, pattern);
        yr_answer operations = yr_check(run.bytes, run.length);
        expect_answer(operations, 0, YR_MAX_RECORDS / 2, "512 operations");
        /* The last operations of the log are listed, and of 6 the last one comes first. */
        unsigned first = YR_VALUE(operations) - listed[pattern];
        expect_pattern(pattern, listed[pattern], pattern == 6 ? first + 1 : first,
                       "a pattern at the end");
    }
}

/* A pattern at the end of 1,023 records with an open remove that took its first value, or that was
   called too late. */
static void check_late_patterns_open(void)
{
    static const unsigned listed[] = {0, 1, 2, 2, 3, 4, 2};
    for (unsigned pattern = 1; pattern <= 6; pattern++) {
        log_late_pattern_open(&run, &order, pattern, OPEN_BEFORE);
        yr_answer operations = yr_check(run.bytes, run.length);
        expect_answer(operations, 0, YR_MAX_RECORDS / 2, "512 operations");
        unsigned first = YR_VALUE(operations) - listed[pattern];
        if (pattern == 4 || pattern == 6)
            expect_order(512, "an open remove that took a value");
        else
            expect_pattern(pattern, listed[pattern], first, "an open remove that does not help");
        log_late_pattern_open(&run, &order, pattern, OPEN_AFTER);
        first--;
        expect_pattern(pattern, listed[pattern], pattern == 6 ? first + 1 : first,
                       "an open remove that is called too late");
    }
}

static void check_largest(void)
{
    log_simulate(&run, &order, CLIENTS_REUSED);
    expect_order(512, "a run of 8 clients");
    log_simulate(&run, &order, CLIENTS_APART);
    expect_order(512, "a run of 8 clients, 1,024 apart");
    log_simulate(&run, &order, CLIENT_PER_OPERATION);
    expect_order(512, "a run with a client for each operation");
    log_simulate_by(&run, &order, CLIENTS_REUSED, MOST_WORKERS);
    expect_order(512, "a run of 64 clients");
    log_simulate_emptied(&run, &order, 0);
    expect_order(512, "a run of 8 clients, at the end of which the queue is empty");
    log_calls_then_returns(&run, &order);
    expect_order(512, "512 calls, then their returns");
    log_one_tick(&run, &order);
    expect_order(512, "512 calls, then their returns, all of one tick");
    log_calls_then_returns_of_slots(&run, &order);
    expect_order(512, "512 calls, then their returns, by clients that share slots");
    log_values_reversed(&run, &order);
    expect_order(512, "256 values removed in reverse order");
    log_pending_pairs(&run, &order);
    expect_order(682, "341 adds without return and their removes, all of which overlap");
    log_values_of_slot(&run, &order);
    expect_order(512, "256 adds, then 256 removes, of values that share a slot");
    log_pending_adds(&run, YR_MAX_RECORDS);
    expect_order(0, "1,024 adds without return");
    log_pending_adds_of_slot(&run, YR_MAX_RECORDS);
    expect_order(0, "1,024 adds without return, of values that share a slot");
    log_relay(&run, &order, 170, 170, LAST_TRUE);
    expect_order(510, "170 empty removes over 170 values");
    log_relay(&run, &order, 170, 170, LAST_FALSE);
    expect_pattern(6, 171, 170, "170 empty removes over 170 values, the last one false");
    log_relay_open(&run, &order, 170, 170, LAST_TRUE);
    expect_order(510, "170 empty removes over 170 values, the last of which an open remove took");
    log_relay_open(&run, &order, 170, 170, LAST_FALSE);
    expect_pattern(6, 171, 1, "the same, and the last empty remove is false");
    log_pending_adds(&run, YR_MAX_RECORDS - 1);
    log_record(&run, CALL_REMOVE, YR_MAX_RECORDS, 0);
    expect_order(0, "1,023 adds without return and a remove without");
}

/* Adds without return whose values are removed have the longest sheet. */
static void check_longest_sheet(void)
{
    log_pending_adds(&run, 341);
    for (unsigned i = 0; i < 341; i++) {
        log_record(&run, CALL_REMOVE, 341, 0);
        log_record(&run, RETURN_VALUE, 341, 340 - i);
    }
    expect_order(682, "341 adds without return, removed from the last to the first");
    expect_answer(judge(YR_SHEET_MAX), 0, YR_SHEET_MAX, "the longest sheet");
    expect_answer(judge(YR_SHEET_MAX - 1), YR_REFUSAL_BUFFER, 0, "a byte less than YR_SHEET_MAX");
    count(is_filled(sheet, 0, sizeof sheet), "nothing is written to a sheet that is too short");
}

int main(void)
{
    check_second_run();
    check_pending_add();
    check_pending_remove();
    check_patterns();
    check_equal_ticks();
    check_refused_logs();
    check_late_patterns();
    check_late_patterns_open();
    check_largest();
    check_longest_sheet();
    return counted();
}
