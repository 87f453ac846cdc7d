/*
 * yr_page through the header, as a program in C uses it. Prints a line for each check that fails
 * and last 'N passed, M failed'; the exit status is 0 only if none failed.
 */

#include <string.h>

#include "count.h"
#include "lent.h"
#include "logs.h"
#include "sheets.h"
#include "yauponroof.h"

/* The bytes of a line, with its line feed, and the characters before the columns. */
#define LINE 81
#define BEFORE_COLUMNS 17

static struct log run, run_before;
static struct sheet order;
static uint8_t page[YR_PAGE_MAX + 32];

/* Makes the page of `run` in so many bytes, all of which are FILL before. */
static yr_answer make_page(size_t length)
{
    memset(page, FILL, sizeof page);
    run_before = run;
    yr_answer answer = yr_page(run.bytes, run.length, page, length);
    count(memcmp(&run, &run_before, sizeof run) == 0, "the log is unchanged");
    return answer;
}

/* Expects `run` to have a page of so many lines, in just as many bytes as that takes and in most. */
static void expect_lines(size_t lines, const char *what)
{
    const size_t length = lines * LINE;
    expect_answer(make_page(YR_PAGE_MAX), 0, (uint32_t)length, what);
    count(is_filled(page, length, sizeof page), "the bytes after the page are unchanged");
    if (lines > 0) {
        expect_answer(make_page(length - 1), YR_REFUSAL_BUFFER, 0, "a byte less than needed");
        count(is_filled(page, 0, sizeof page), "nothing is written to a buffer that is too short");
        expect_answer(make_page(0), YR_REFUSAL_BUFFER, 0, "no bytes for a page with lines");
        count(is_filled(page, 0, sizeof page), "nothing is written to a buffer of no bytes");
    }
    expect_answer(make_page(length), 0, (uint32_t)length, what);
    count(is_filled(page, length, sizeof page), "the bytes after the page are unchanged");
}

/* Expects a line of the page to begin with this text, and to have spaces up to its line feed. */
static void expect_line(size_t number, const char *text)
{
    const uint8_t *line = page + number * LINE;
    const size_t length = strlen(text);
    int holds = memcmp(line, text, length) == 0 && line[LINE - 1] == '\n';
    for (size_t i = length; i < LINE - 1; i++)
        holds = holds && line[i] == ' ';
    count(holds, text);
}

static void check_constants(void)
{
    count(YR_PAGE_RECORDS == 63, "YR_PAGE_RECORDS");
    count(YR_PAGE_MAX == YR_PAGE_RECORDS * LINE, "YR_PAGE_MAX");
    count(YR_REFUSAL_PAGE == 30, "YR_REFUSAL_PAGE");
    count(LINE - 1 - BEFORE_COLUMNS == YR_PAGE_RECORDS, "a column for each record");
}

static void check_second_run(void)
{
    memcpy(run.bytes, second_run, sizeof second_run);
    run.length = sizeof second_run;
    expect_lines(2, "the second run");
    expect_line(0, "   0 A7          ##..");
    expect_line(1, "   1 R7          ..##");
}

static void check_every_kind(void)
{
    log_begin(&run);
    expect_lines(0, "no records");
    log_record(&run, CALL_ADD, 1, 0);
    log_record(&run, CALL_ADD, 300, 4294967295u);
    log_record(&run, RETURN_ADD, 1, 0);
    log_record(&run, CALL_REMOVE, 2, 0);
    log_record(&run, CALL_REMOVE, 1, 0);
    log_record(&run, RETURN_EMPTY, 1, 0);
    log_record(&run, RETURN_VALUE, 2, 0);
    log_record(&run, CALL_REMOVE, 2, 0);
    log_record(&run, RETURN_VALUE, 2, 1000);
    log_record(&run, CALL_ADD, 2, 20);
    expect_lines(6, "operations of every kind, two of which do not return");
    expect_line(0, "   0 A0          ###.......");
    expect_line(1, "   1 A4294967295 .#########");
    expect_line(2, "   2 R0          ...####...");
    expect_line(3, "   3 E           ....##....");
    expect_line(4, "   4 R1000       .......##.");
    expect_line(5, "   5 A20         .........#");
}

/* A remove that never returns is a lone R. */
static void check_pending_remove(void)
{
    log_begin(&run);
    log_record(&run, CALL_REMOVE, 3, 0);
    expect_lines(1, "a lone open remove");
    expect_line(0, "   0 R           #");
    log_record(&run, CALL_ADD, 1, 0);
    log_record(&run, RETURN_ADD, 1, 0);
    log_record(&run, CALL_REMOVE, 1, 0);
    log_record(&run, RETURN_VALUE, 1, 0);
    expect_lines(3, "an open remove, an add and a remove of 0");
    expect_line(0, "   0 R           #####");
    expect_line(1, "   1 A0          .##..");
    expect_line(2, "   2 R0          ...##");
}

/* Expects line i of n open adds: number and value are i, and all columns from i on are marked. */
static void expect_open_add(unsigned i, unsigned n)
{
    char text[LINE];
    snprintf(text, sizeof text, "%4u A%-10u ", i, i);
    memset(text + BEFORE_COLUMNS, '.', i);
    memset(text + BEFORE_COLUMNS + i, '#', n - i);
    text[BEFORE_COLUMNS + n] = '\0';
    expect_line(i, text);
}

static void check_most_records(void)
{
    for (unsigned n = YR_PAGE_RECORDS - 1; n <= YR_PAGE_RECORDS; n++) {
        log_pending_adds(&run, n);
        expect_lines(n, "adds without return");
        for (unsigned i = 0; i < n; i++)
            expect_open_add(i, n);
    }
    expect_answer(make_page(sizeof page), 0, YR_PAGE_MAX, "the longest page");
}

/* Expects this refusal of `run`, with a buffer that is long enough and with one of no bytes. */
static void expect_refused(uint32_t refusal, uint32_t index, const char *what)
{
    expect_answer(make_page(YR_PAGE_MAX), refusal, index, what);
    count(is_filled(page, 0, sizeof page), "a refused call writes nothing");
    expect_answer(make_page(0), refusal, index, what);
    count(is_filled(page, 0, sizeof page), "a refused call writes nothing");
}

static void check_too_many_records(void)
{
    log_pending_adds(&run, YR_PAGE_RECORDS + 1);
    expect_refused(YR_REFUSAL_PAGE, 0, "64 adds without return");
    log_pending_adds(&run, YR_MAX_RECORDS);
    expect_refused(YR_REFUSAL_PAGE, 0, "1,024 adds without return");
    log_simulate(&run, &order, CLIENTS_REUSED);
    expect_refused(YR_REFUSAL_PAGE, 0, "a run of 8 clients");
}

static void check_refused_logs(void)
{
    log_each_refused(&run, expect_refused);
    log_pending_adds(&run, YR_PAGE_RECORDS + 1);
    run.length--;
    expect_refused(YR_REFUSAL_BYTES, YR_PAGE_RECORDS, "the bytes end inside record 63");
    log_pending_adds(&run, YR_PAGE_RECORDS);
    log_record(&run, CALL_ADD, YR_PAGE_RECORDS, 0);
    expect_refused(YR_REFUSAL_VALUE, YR_PAGE_RECORDS, "the last of 64 adds repeats a value");
}

int main(void)
{
    check_constants();
    check_second_run();
    check_every_kind();
    check_pending_remove();
    check_most_records();
    check_too_many_records();
    check_refused_logs();
    return counted();
}
