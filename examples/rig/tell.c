#include "tell.h"

#include <stdio.h>

#include "records.h"

static const struct {
    const char *name, *meaning;
} patterns[] = {
    {"none", ""},
    {"unknown", "a remove returned a value that was never added"},
    {"twice", "two removes returned one value"},
    {"early", "a remove returned a value before its add was called"},
    {"stuck", "of two values the one added first was never removed, the other was"},
    {"overtaken", "of two values the one added first was removed last"},
    {"false empty", "a remove returned empty although the queue had a value all the time"},
};

const char *pattern_name(unsigned pattern)
{
    return patterns[pattern].name;
}

static const char *operation_name(const struct record *record)
{
    return record->kind == YR_RECORDER_ADD_CALLED ? "add" : "remove";
}

/* The listed operations, with their numbers alone. */
static void tell_list(const struct sheet *sheet, const struct record *records)
{
    for (unsigned i = 0; i < sheet_count(sheet); i++) {
        unsigned operation = sheet_operation(sheet, i);
        printf("%s %s %u", i == 0 ? ":" : ",", operation_name(telling_record(records, operation)),
               operation);
    }
    printf("\n");
}

/* The value that a record names, or that there was none. */
static void tell_value(const struct record *record)
{
    if (has_value(record->kind))
        printf("value %lu", (unsigned long)record->value);
    else
        printf("empty");
}

/* The listed operations, a line each, with client and value. */
static void tell_operations(const struct sheet *sheet, const struct record *records)
{
    for (unsigned i = 0; i < sheet_count(sheet); i++) {
        unsigned operation = sheet_operation(sheet, i);
        const struct record *record = telling_record(records, operation);
        printf("    %s %u by client %u: ", operation_name(record), operation, record->client);
        tell_value(record);
        printf("\n");
    }
}

/* What happened in a record of these. */
static void tell_event(const struct record *record, const struct record *records)
{
    switch (record->kind) {
    case YR_RECORDER_ADD_CALLED:
    case YR_RECORDER_ADD_RETURNED:
        printf("add of ");
        tell_value(telling_record(records, record->operation));
        printf(record->kind == YR_RECORDER_ADD_CALLED ? " called" : " returned");
        break;
    case YR_RECORDER_REMOVE_CALLED:
        printf("remove called");
        break;
    case YR_RECORDER_REMOVE_RETURNED:
    case YR_RECORDER_REMOVE_EMPTY:
        printf("remove returned ");
        tell_value(record);
        break;
    }
}

/* The records of an excerpt. Each is the record of the log whose index is its tick. */
static void tell_events(const struct record *excerpt, unsigned count, const struct record *log)
{
    printf("    operation  in the log  tick\n");
    for (unsigned i = 0; i < count; i++) {
        const struct record *record = &excerpt[i];
        printf("    %9u  %10u  %4lu  client %-2u  ", record->operation,
               log[record->tick].operation, (unsigned long)record->tick, record->client);
        tell_event(record, excerpt);
        printf("\n");
    }
}

/* The pattern on a sheet, with the numbers of its operations. */
static void tell_sheet(const struct sheet *sheet, const struct record *records)
{
    printf("pattern %u, %s", sheet_verdict(sheet), pattern_name(sheet_verdict(sheet)));
    tell_list(sheet, records);
}

/* The page of an excerpt or of a log as it was written, or that there is none. */
static void tell_page(const struct page *page, const char *whose)
{
    if (page->length == 0) {
        printf("the %s has no page: it has more than %d records\n", whose, YR_PAGE_RECORDS);
        return;
    }
    printf("the %s's page, a line for each operation and a column for each record:\n", whose);
    fwrite(page->bytes, 1, page->length, stdout);
}

/* The excerpt, judged and drawn. */
static void tell_excerpt(const struct verdict *verdict, const struct record *records)
{
    struct record excerpt[YR_MAX_RECORDS];
    unsigned count = read_records(&verdict->excerpt, excerpt);
    printf("its excerpt, judged as a log of its own: ");
    tell_sheet(&verdict->excerpt_sheet, excerpt);
    tell_events(excerpt, count, records);
    tell_page(&verdict->page, "excerpt");
}

/* The remove that never returned, and how its client was lost. */
static void tell_pending(const struct record *call, const struct loss *loss)
{
    printf("    remove %u by client %u never returned: the client was lost ", call->operation,
           call->client);
    if (loss->stop == STOP_BEFORE)
        printf("before the remove entered the queue\n");
    else if (loss->found)
        printf("after it had taken value %lu\n", (unsigned long)loss->value);
    else
        printf("after it had found the queue empty\n");
}

void tell_pattern(const struct log *log, const struct verdict *verdict, const struct loss *loss)
{
    struct record records[YR_MAX_RECORDS];
    const struct record *pending = pending_remove(records, read_records(log, records));
    tell_sheet(&verdict->sheet, records);
    printf("    %s\n", patterns[sheet_verdict(&verdict->sheet)].meaning);
    tell_operations(&verdict->sheet, records);
    if (pending == NULL) {
        tell_excerpt(verdict, records);
        return;
    }
    tell_pending(pending, loss);
    printf("    the pattern leaves it out, and there is no order with it either\n");
    printf("no excerpt is made of a log in which a remove never returned\n");
    tell_page(&verdict->page, "log");
}

void tell_order(const struct log *log, const struct verdict *verdict, const struct loss *loss)
{
    struct record records[YR_MAX_RECORDS];
    const struct record *pending = pending_remove(records, read_records(log, records));
    printf("order\n");
    if (pending == NULL) {
        printf("    no client was lost: the round has no remove\n");
        return;
    }
    tell_pending(pending, loss);
    if (verdict->lists_pending)
        printf("    the order lists it: it takes value %lu\n",
               (unsigned long)verdict->pending_takes);
    else
        printf("    the order leaves it out\n");
}
