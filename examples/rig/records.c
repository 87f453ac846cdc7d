#include "records.h"

#include <stddef.h>

/* The number in so many bytes. */
static uint32_t number_at(const uint8_t *bytes, unsigned count)
{
    uint32_t number = 0;
    while (count-- > 0)
        number = number << 8 | *bytes++;
    return number;
}

int has_value(enum yr_recorder_kind kind)
{
    return kind == YR_RECORDER_ADD_CALLED || kind == YR_RECORDER_REMOVE_RETURNED;
}

static int is_call(enum yr_recorder_kind kind)
{
    return kind == YR_RECORDER_ADD_CALLED || kind == YR_RECORDER_REMOVE_CALLED;
}

unsigned read_records(const struct log *log, struct record *records)
{
    unsigned count = number_at(log->bytes + 1, 2), operations = 0;
    unsigned at_work_on[MAX_CLIENTS];
    const uint8_t *bytes = log->bytes + 3;
    for (unsigned i = 0; i < count; i++) {
        struct record *record = &records[i];
        record->kind = (enum yr_recorder_kind)bytes[1];
        record->client = number_at(bytes + 2, 2);
        record->tick = number_at(bytes + 4, 4);
        record->value = has_value(record->kind) ? number_at(bytes + 8, 4) : 0;
        if (is_call(record->kind))
            at_work_on[record->client] = operations++;
        record->operation = at_work_on[record->client];
        bytes += 1 + bytes[0];
    }
    return count;
}

const struct record *telling_record(const struct record *records, unsigned operation)
{
    while (records->operation != operation || records->kind == YR_RECORDER_REMOVE_CALLED)
        records++;
    return records;
}

/* Whether one of so many records belongs to the operation. */
static int is_among(unsigned operation, const struct record *records, unsigned count)
{
    for (unsigned i = 0; i < count; i++)
        if (records[i].operation == operation)
            return 1;
    return 0;
}

const struct record *pending_remove(const struct record *records, unsigned count)
{
    for (unsigned i = 0; i < count; i++)
        if (records[i].kind == YR_RECORDER_REMOVE_CALLED &&
            !is_among(records[i].operation, records + i + 1, count - i - 1))
            return &records[i];
    return NULL;
}
