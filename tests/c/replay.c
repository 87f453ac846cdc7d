/*
 * yr_replay through the header, as a program in C uses it. Prints a line for each check that fails
 * and last 'N passed, M failed'; the exit status is 0 only if none failed.
 */

#include <string.h>

#include "count.h"
#include "logs.h"
#include "sheets.h"
#include "yauponroof.h"

/* What an accepted replay returns. */
enum { NO, YES };

static struct log run;
static struct sheet order;

/* Expects this refusal and value for the second run with the bytes of a sheet. */
static void expect_sheet(const uint8_t *bytes, size_t length, uint32_t refusal, uint32_t value,
                         const char *what)
{
    yr_answer answer = yr_replay(second_run, sizeof second_run, bytes, length);
    expect_answer(answer, refusal, value, what);
}

/* Expects this refusal and value for `run` with `order`. */
static void expect_order(uint32_t refusal, uint32_t value, const char *what)
{
    expect_answer(yr_replay(run.bytes, run.length, order.bytes, order.length), refusal, value, what);
}

static void check_orders_in_bytes(void)
{
    const uint8_t legal[] = {1, 0, 0, 2, 0, 0, 0, 1};
    const uint8_t remove_first[] = {1, 0, 0, 2, 0, 1, 0, 0};
    const uint8_t add_alone[] = {1, 0, 0, 1, 0, 0};
    const uint8_t add_twice[] = {1, 0, 0, 3, 0, 0, 0, 1, 0, 0};
    const uint8_t unknown[] = {1, 0, 0, 3, 0, 0, 0, 1, 0, 2};
    const uint8_t nothing[] = {1, 0, 0, 0};
    expect_sheet(legal, sizeof legal, 0, YES, "the add, then the remove");
    expect_sheet(remove_first, sizeof remove_first, 0, NO, "the remove, then the add");
    expect_sheet(add_alone, sizeof add_alone, 0, NO, "the add alone");
    expect_sheet(add_twice, sizeof add_twice, 0, NO, "the add a second time");
    expect_sheet(unknown, sizeof unknown, 0, NO, "an operation that the log lacks");
    expect_sheet(nothing, sizeof nothing, 0, NO, "no operation");
}

static void check_refused_sheets(void)
{
    const uint8_t version[] = {2, 0, 0, 2, 0, 0, 0, 1};
    const uint8_t verdict[] = {1, 6, 0, 2, 0, 0, 0, 1};
    const uint8_t more[] = {1, 0, 0, 3, 0, 0, 0, 1};
    const uint8_t fewer[] = {1, 0, 0, 1, 0, 0, 0, 1};
    const uint8_t half[] = {1, 0, 0, 2, 0, 0, 0, 1, 0};
    expect_sheet(version, 0, YR_REFUSAL_SHEET, 0, "a sheet of no bytes");
    expect_sheet(half, 3, YR_REFUSAL_SHEET, 0, "a sheet of 3 bytes");
    expect_sheet(version, sizeof version, YR_REFUSAL_SHEET, 0, "version 2");
    expect_sheet(verdict, sizeof verdict, YR_REFUSAL_SHEET, 0, "a pattern");
    expect_sheet(more, sizeof more, YR_REFUSAL_SHEET, 0, "k above what is listed");
    expect_sheet(fewer, sizeof fewer, YR_REFUSAL_SHEET, 0, "k below what is listed");
    expect_sheet(half, sizeof half, YR_REFUSAL_SHEET, 0, "half an operation number left");
}

static void check_refused_logs(void)
{
    sheet_begin(&order);
    log_begin(&run);
    log_record(&run, CALL_ADD, 1, 7);
    log_record(&run, RETURN_ADD, 1, 0);
    log_record(&run, CALL_ADD, 1, 7);
    expect_order(YR_REFUSAL_VALUE, 2, "7 is added again");
    order.length = 0;
    expect_order(YR_REFUSAL_VALUE, 2, "7 is added again, and the sheet is none");

    log_begin(&run);
    log_record(&run, CALL_REMOVE, 2, 0);
    log_record(&run, CALL_REMOVE, 3, 0);
    expect_order(YR_REFUSAL_PENDING_REMOVE, 1, "two removes without return, and no sheet");
    sheet_call_order(&order, 2);
    expect_order(YR_REFUSAL_PENDING_REMOVE, 1, "two removes without return");

    log_begin(&run);
    run.length = 2;
    expect_order(YR_REFUSAL_BYTES, 0, "a log of 2 bytes");
}

static void check_pending_add(void)
{
    log_begin(&run);
    log_record(&run, CALL_ADD, 1, 0);
    sheet_begin(&order);
    expect_order(0, YES, "an add without return is left out");
    sheet_list(&order, 0);
    expect_order(0, YES, "an add without return is listed");
    sheet_list(&order, 0);
    expect_order(0, NO, "an add without return is listed twice");

    log_record(&run, CALL_REMOVE, 2, 0);
    log_record(&run, RETURN_VALUE, 2, 0);
    sheet_call_order(&order, 2);
    expect_order(0, YES, "the value 0 is removed while its add is open");
    sheet_begin(&order);
    sheet_list(&order, 1);
    expect_order(0, NO, "a removed value without its add");
}

/* Expects this answer for `run` with an order of so many of these operations. */
static void expect_listed(const unsigned *operations, unsigned listed, uint32_t value,
                          const char *what)
{
    sheet_begin(&order);
    for (unsigned i = 0; i < listed; i++)
        sheet_list(&order, operations[i]);
    expect_order(0, value, what);
}

/* A remove that never returns stands in an order once or not at all. */
static void check_pending_remove(void)
{
    static const unsigned twice[] = {0, 0};
    static const unsigned first[] = {0, 1, 2}, between[] = {1, 0, 2}, last[] = {1, 2, 0};
    static const unsigned too_late[] = {0, 2, 1};
    log_begin(&run);
    log_record(&run, CALL_REMOVE, 3, 0);
    expect_listed(twice, 0, YES, "an open remove is left out");
    expect_listed(twice, 1, YES, "an open remove is listed, on an empty queue");
    expect_listed(twice, 2, NO, "an open remove is listed twice");

    log_record(&run, CALL_ADD, 1, 0);
    log_record(&run, RETURN_ADD, 1, 0);
    log_record(&run, CALL_REMOVE, 1, 0);
    log_record(&run, RETURN_EMPTY, 1, 0);
    expect_listed(first, 3, NO, "it finds no value, and the empty remove meets one");
    expect_listed(between, 3, YES, "it takes the value before the empty remove comes");
    expect_listed(last, 3, NO, "it takes the value too late");
    expect_listed(between, 2, NO, "a returned remove is not listed");

    log_begin(&run);
    log_record(&run, CALL_ADD, 1, 0);
    log_record(&run, RETURN_ADD, 1, 0);
    log_record(&run, CALL_REMOVE, 1, 0);
    log_record(&run, RETURN_EMPTY, 1, 0);
    log_record(&run, CALL_REMOVE, 3, 0);
    expect_listed(too_late, 3, NO, "it is called when the empty remove has returned");
    log_join(&run, 4);
    expect_listed(too_late, 3, YES, "it is called at the tick of that return");
}

/* Two adds one after the other, at ticks apart and at one tick. */
static void check_equal_ticks(void)
{
    log_begin(&run);
    log_record(&run, CALL_ADD, 1, 1);
    log_record(&run, RETURN_ADD, 1, 0);
    log_record(&run, CALL_ADD, 2, 2);
    log_record(&run, RETURN_ADD, 2, 0);
    sheet_begin(&order);
    sheet_list(&order, 1);
    sheet_list(&order, 0);
    expect_order(0, NO, "the later add first");
    log_join(&run, 2);
    expect_order(0, YES, "the later add first, where it is called at the tick of the return");
    log_join_all(&run);
    expect_order(0, YES, "the later add first, all of one tick");
}

/* The order is legal, and with another number in its last place it is not: that operation is then
   listed twice. Neither the log nor the sheet is changed. */
static void check_large(const char *what)
{
    static struct log run_before;
    static struct sheet order_before;

    run_before = run;
    order_before = order;
    expect_order(0, YES, what);
    count(memcmp(&run, &run_before, sizeof run) == 0, "the log is unchanged");
    count(memcmp(&order, &order_before, sizeof order) == 0, "the sheet is unchanged");
    order.bytes[order.length - 1] ^= 1;
    expect_order(0, NO, what);
}

static void check_largest(void)
{
    log_simulate(&run, &order, CLIENTS_REUSED);
    check_large("a run of 8 clients");
    log_simulate(&run, &order, CLIENTS_APART);
    check_large("a run of 8 clients, 1,024 apart");
    log_simulate(&run, &order, CLIENT_PER_OPERATION);
    check_large("a run with a client for each operation");
    log_calls_then_returns(&run, &order);
    check_large("512 calls, then their returns");
    log_one_tick(&run, &order);
    check_large("512 calls, then their returns, all of one tick");
    log_calls_then_returns_of_slots(&run, &order);
    check_large("512 calls, then their returns, by clients that share slots");
    log_pending_pairs(&run, &order);
    check_large("341 adds without return and their removes, all of which overlap");
    log_values_of_slot(&run, &order);
    check_large("256 adds, then 256 removes, of values that share a slot");
    log_late_pattern_open(&run, &order, 4, OPEN_BEFORE);
    check_large("a run of 8 clients, and an open remove that took a value");
    log_relay_open(&run, &order, 170, 170, LAST_TRUE);
    check_large("170 empty removes over 170 values, the last of which an open remove took");

    log_pending_adds(&run, YR_MAX_RECORDS);
    sheet_begin(&order);
    expect_order(0, YES, "1,024 adds without return, none listed");
    sheet_call_order(&order, YR_MAX_RECORDS);
    count(order.length > YR_SHEET_MAX, "1,024 operations do not fit YR_SHEET_MAX bytes");
    check_large("1,024 adds without return, all listed");
    sheet_call_order(&order, YR_MAX_RECORDS + 1);
    expect_order(0, NO, "1,025 operations listed");
    sheet_call_order(&order, SHEET_OPERATIONS);
    expect_order(0, NO, "65,535 operations listed");
    order.length--;
    expect_order(YR_REFUSAL_SHEET, 0, "65,535 operations but for a byte");
}

int main(void)
{
    check_orders_in_bytes();
    check_refused_sheets();
    check_refused_logs();
    check_pending_add();
    check_pending_remove();
    check_equal_ticks();
    check_largest();
    return counted();
}
