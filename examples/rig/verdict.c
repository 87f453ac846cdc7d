#include "verdict.h"

#include "records.h"
#include "trouble.h"

/* The bytes of a log before its records, of a sheet before the operations that it lists, and of each
   line of a page: 80 characters and a line feed. */
enum { LOG_HEADER = 3, SHEET_HEADER = 4, PAGE_LINE = 81 };

unsigned sheet_verdict(const struct sheet *sheet)
{
    return sheet->bytes[1];
}

unsigned sheet_count(const struct sheet *sheet)
{
    return (unsigned)sheet->bytes[2] << 8 | sheet->bytes[3];
}

unsigned sheet_operation(const struct sheet *sheet, unsigned i)
{
    const uint8_t *number = sheet->bytes + SHEET_HEADER + 2 * i;
    return (unsigned)number[0] << 8 | number[1];
}

/* Whether an answer is accepted. */
static int accepted(yr_answer answer, const char *what)
{
    if (YR_REFUSED(answer) == 0)
        return 1;
    return trouble("the %s is refused: %u, record %u", what, (unsigned)YR_REFUSED(answer),
                   (unsigned)YR_VALUE(answer));
}

/* How many operations a log has: it has a call for each. */
static unsigned count_operations(const struct log *log)
{
    unsigned calls = 0;
    for (size_t at = LOG_HEADER; at + 1 < log->length; at += 1u + log->bytes[at])
        calls += log->bytes[at + 1] == YR_RECORDER_ADD_CALLED ||
                 log->bytes[at + 1] == YR_RECORDER_REMOVE_CALLED;
    return calls;
}

/* Whether a sheet has a verdict, and lists operations that the log has, as many as it says. */
static int is_sheet_of(const struct sheet *sheet, const struct log *log)
{
    unsigned operations = count_operations(log);
    if (sheet->length > sizeof sheet->bytes || sheet_verdict(sheet) > PATTERNS ||
        sheet->length != SHEET_HEADER + 2 * sheet_count(sheet))
        return 0;
    for (unsigned i = 0; i < sheet_count(sheet); i++)
        if (sheet_operation(sheet, i) >= operations)
            return 0;
    return 1;
}

static int write_sheet(const struct log *log, struct sheet *sheet, const char *what)
{
    yr_answer answer = yr_judge(log->bytes, log->length, sheet->bytes, sizeof sheet->bytes);
    sheet->length = YR_VALUE(answer);
    if (!accepted(answer, what))
        return 0;
    return is_sheet_of(sheet, log) || trouble("what is written is no sheet of the %s", what);
}

/* Whether the order on the sheet is legal for the log. */
static int replay(const struct log *log, const struct sheet *sheet)
{
    yr_answer answer = yr_replay(log->bytes, log->length, sheet->bytes, sheet->length);
    if (!accepted(answer, "order"))
        return 0;
    return YR_VALUE(answer) == 1 || trouble("the order is not legal");
}

/* Writes the excerpt of the log and judges it by itself; whether that gives the same pattern. */
static int judge_excerpt(const struct log *log, struct verdict *verdict)
{
    struct log *excerpt = &verdict->excerpt;
    yr_answer answer =
        yr_excerpt(log->bytes, log->length, excerpt->bytes, sizeof excerpt->bytes);
    excerpt->length = YR_VALUE(answer);
    if (!accepted(answer, "excerpt"))
        return 0;
    if (excerpt->length > log->length)
        return trouble("the excerpt is longer than the log");
    if (!write_sheet(excerpt, &verdict->excerpt_sheet, "log of the excerpt"))
        return 0;
    return sheet_verdict(&verdict->excerpt_sheet) == sheet_verdict(&verdict->sheet) ||
           trouble("the excerpt judged by itself has another verdict");
}

/* Whether a page has lines, one for each operation of the log. */
static int is_page_of(const struct page *page, const struct log *log)
{
    return page->length > 0 && page->length <= sizeof page->bytes &&
           page->length == PAGE_LINE * count_operations(log);
}

/* Writes a page. It is no trouble if the log has too many records for one. */
static int write_page(const struct log *log, struct page *page, const char *what)
{
    yr_answer answer = yr_page(log->bytes, log->length, page->bytes, sizeof page->bytes);
    page->length = 0;
    if (YR_REFUSED(answer) == YR_REFUSAL_PAGE)
        return 1;
    if (!accepted(answer, what))
        return 0;
    page->length = YR_VALUE(answer);
    return is_page_of(page, log) || trouble("what is written is no %s", what);
}

/* How often a sheet lists an operation. */
static unsigned times_listed(const struct sheet *sheet, unsigned operation)
{
    unsigned times = 0;
    for (unsigned i = 0; i < sheet_count(sheet); i++)
        times += sheet_operation(sheet, i) == operation;
    return times;
}

/* The call of the add whose value is at the front when a legal order comes to an operation that it
   lists: of the adds before, as many are gone as removes before have returned a value. NULL if the
   queue is empty then. */
static const struct record *front_before(const struct sheet *order, unsigned operation,
                                         const struct record *records)
{
    unsigned gone = 0;
    for (unsigned i = 0; sheet_operation(order, i) != operation; i++)
        gone += telling_record(records, sheet_operation(order, i))->kind ==
                YR_RECORDER_REMOVE_RETURNED;
    for (unsigned i = 0; sheet_operation(order, i) != operation; i++) {
        const struct record *record = telling_record(records, sheet_operation(order, i));
        if (record->kind == YR_RECORDER_ADD_CALLED && gone-- == 0)
            return record;
    }
    return NULL;
}

/* Finds out what a legal order makes of the remove that never returned: it leaves it out, or lists it
   once, as the remove of a value. */
static int settle_order(unsigned pending, const struct record *records, struct verdict *verdict)
{
    unsigned times = times_listed(&verdict->sheet, pending);
    if (times == 0)
        return 1;
    if (times > 1)
        return trouble("the order lists the remove that never returned more than once");
    const struct record *front = front_before(&verdict->sheet, pending, records);
    if (front == NULL)
        return trouble("the order lists the remove that never returned where it takes nothing");
    verdict->lists_pending = 1;
    verdict->pending_takes = front->value;
    return 1;
}

/* With a pattern, a remove that never returned is not listed, and there is no excerpt. So the log
   itself is drawn. */
static int settle_pattern(unsigned pending, const struct log *log, struct verdict *verdict)
{
    if (times_listed(&verdict->sheet, pending) > 0)
        return trouble("the pattern lists the remove that never returned");
    yr_answer answer = yr_excerpt(log->bytes, log->length, verdict->excerpt.bytes,
                                  sizeof verdict->excerpt.bytes);
    if (YR_REFUSED(answer) != YR_REFUSAL_UNRETURNED)
        return accepted(answer, "excerpt") &&
               trouble("an excerpt is written although a remove never returned");
    return write_page(log, &verdict->page, "page of the log");
}

int judge(const struct log *log, struct verdict *verdict)
{
    struct record records[YR_MAX_RECORDS];
    const struct record *pending = pending_remove(records, read_records(log, records));
    verdict->lists_pending = 0;
    verdict->excerpt.length = 0;
    if (!write_sheet(log, &verdict->sheet, "log"))
        return 0;
    if (sheet_verdict(&verdict->sheet) == 0)
        return replay(log, &verdict->sheet) &&
               (pending == NULL || settle_order(pending->operation, records, verdict));
    if (pending != NULL)
        return settle_pattern(pending->operation, log, verdict);
    return judge_excerpt(log, verdict) &&
           write_page(&verdict->excerpt, &verdict->page, "page of the excerpt");
}
