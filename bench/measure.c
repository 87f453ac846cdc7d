/*
 * Calls one entry on one log, for bench/instructions to count. The arguments name the entry and the
 * log. Prints the log's records, operations and bytes, and how many operations the order lists that
 * replay is handed, and those that the judge lists. Replay is not called on a log with a pattern, and
 * the page not on one of too many records. A feed is that of the log's last record to a session that
 * holds the others, so it is not called on the log of no records. A session is begun, fed all records
 * of the log and closed.
 */

#include <stdio.h>
#include <string.h>

#include "logs.h"
#include "sessions.h"
#include "sheets.h"
#include "yauponroof.h"

/* A log of the measurement with a legal order, the number of its operations, and the judge's verdict
   with the number of operations listed. With a pattern there is no legal order. */
struct sample {
    const char *name;
    unsigned operations;
    unsigned verdict;
    unsigned judged;
    void (*make)(struct log *, struct sheet *);
};

static void eight_clients(struct log *log, struct sheet *order)
{
    log_simulate(log, order, CLIENTS_REUSED);
}

static void sixty_four_clients(struct log *log, struct sheet *order)
{
    log_simulate_by(log, order, CLIENTS_REUSED, MOST_WORKERS);
}

static void client_per_operation(struct log *log, struct sheet *order)
{
    log_simulate(log, order, CLIENT_PER_OPERATION);
}

static void pending_adds(struct log *log, struct sheet *order)
{
    log_pending_adds(log, YR_MAX_RECORDS);
    sheet_begin(order);
}

static void pending_adds_listed(struct log *log, struct sheet *order)
{
    log_pending_adds(log, YR_MAX_RECORDS);
    sheet_call_order(order, YR_MAX_RECORDS);
}

static void pending_shared_slot(struct log *log, struct sheet *order)
{
    log_pending_adds_of_slot(log, YR_MAX_RECORDS);
    sheet_begin(order);
}

static void empty_removes(struct log *log, struct sheet *order)
{
    log_relay(log, order, 85, 340, LAST_TRUE);
}

static void empty_removes_false(struct log *log, struct sheet *order)
{
    log_relay(log, order, 85, 340, LAST_FALSE);
}

static void long_chain(struct log *log, struct sheet *order)
{
    log_relay(log, order, 170, 170, LAST_TRUE);
}

static void long_chain_false(struct log *log, struct sheet *order)
{
    log_relay(log, order, 170, 170, LAST_FALSE);
}

static void late_1(struct log *log, struct sheet *order)
{
    log_late_pattern(log, order, 1);
}

static void late_2(struct log *log, struct sheet *order)
{
    log_late_pattern(log, order, 2);
}

static void late_3(struct log *log, struct sheet *order)
{
    log_late_pattern(log, order, 3);
}

static void late_4(struct log *log, struct sheet *order)
{
    log_late_pattern(log, order, 4);
}

static void late_5(struct log *log, struct sheet *order)
{
    log_late_pattern(log, order, 5);
}

static void late_6(struct log *log, struct sheet *order)
{
    log_late_pattern(log, order, 6);
}

static void late_4_open(struct log *log, struct sheet *order)
{
    log_late_pattern_open(log, order, 4, OPEN_BEFORE);
}

static void late_6_open(struct log *log, struct sheet *order)
{
    log_late_pattern_open(log, order, 6, OPEN_AFTER);
}

static void long_chain_open(struct log *log, struct sheet *order)
{
    log_relay_open(log, order, 170, 170, LAST_TRUE);
}

static void long_chain_false_open(struct log *log, struct sheet *order)
{
    log_relay_open(log, order, 170, 170, LAST_FALSE);
}

static void empty(struct log *log, struct sheet *order)
{
    log_begin(log);
    sheet_begin(order);
}

static const struct sample samples[] = {
    {"8-clients", 512, 0, 512, eight_clients},
    {"64-clients", 512, 0, 512, sixty_four_clients},
    {"client-per-operation", 512, 0, 512, client_per_operation},
    {"calls-then-returns", 512, 0, 512, log_calls_then_returns},
    {"one-tick", 512, 0, 512, log_one_tick},
    {"calls-shared-slot", 512, 0, 512, log_calls_then_returns_of_slots},
    {"values-reversed", 512, 0, 512, log_values_reversed},
    {"pending-pairs", 682, 0, 682, log_pending_pairs},
    {"shared-slot", 512, 0, 512, log_values_of_slot},
    {"reader-shared-slot", 512, 0, 512, log_clients_of_slot},
    {"pending-adds", 1024, 0, 0, pending_adds},
    {"pending-adds-listed", 1024, 0, 0, pending_adds_listed},
    {"pending-shared-slot", 1024, 0, 0, pending_shared_slot},
    {"empty-removes", 510, 0, 510, empty_removes},
    {"empty-removes-false", 510, 6, 86, empty_removes_false},
    {"long-chain", 510, 0, 510, long_chain},
    {"long-chain-false", 510, 6, 171, long_chain_false},
    {"late-1", 512, 1, 1, late_1},
    {"late-2", 512, 2, 2, late_2},
    {"late-3", 512, 3, 2, late_3},
    {"late-4", 512, 4, 3, late_4},
    {"late-5", 512, 5, 4, late_5},
    {"late-6", 512, 6, 2, late_6},
    {"late-4-open", 512, 0, 512, late_4_open},
    {"late-6-open", 512, 6, 2, late_6_open},
    {"long-chain-open", 510, 0, 510, long_chain_open},
    {"long-chain-false-open", 510, 6, 171, long_chain_false_open},
    {"63-records", 32, 0, 31, log_simulate_page},
    {"empty", 0, 0, 0, empty},
};

static yr_answer answer;
static uint8_t judged[YR_SHEET_MAX];
static uint8_t page[YR_PAGE_MAX];
static struct held held;

/* The calls that are counted, with all they call. Storing the answer keeps them from being jumps. */
__attribute__((noinline, noclone)) void measured_check(const struct log *log);
__attribute__((noinline, noclone)) void measured_replay(const struct log *log,
                                                        const struct sheet *order);
__attribute__((noinline, noclone)) void measured_judge(const struct log *log);
__attribute__((noinline, noclone)) void measured_page(const struct log *log);
__attribute__((noinline, noclone)) void measured_feed(const struct log *log);
__attribute__((noinline, noclone)) void measured_session(const struct log *log);

void measured_check(const struct log *log)
{
    answer = yr_check(log->bytes, log->length);
}

void measured_replay(const struct log *log, const struct sheet *order)
{
    answer = yr_replay(log->bytes, log->length, order->bytes, order->length);
}

void measured_judge(const struct log *log)
{
    answer = yr_judge(log->bytes, log->length, judged, sizeof judged);
}

void measured_page(const struct log *log)
{
    answer = yr_page(log->bytes, log->length, page, sizeof page);
}

/* Feeds the record of the log that the session is to hold next. */
void measured_feed(const struct log *log)
{
    const uint8_t *record = log->bytes + held.session.used;
    answer = yr_feed(&held.session, held.bytes, sizeof held.bytes, record, 1u + record[0]);
}

void measured_session(const struct log *log)
{
    answer = yr_begin(&held.session, held.bytes, sizeof held.bytes);
    while (YR_REFUSED(answer) == 0 && held.session.used < log->length) {
        const uint8_t *record = log->bytes + held.session.used;
        answer = yr_feed(&held.session, held.bytes, sizeof held.bytes, record, 1u + record[0]);
    }
    if (YR_REFUSED(answer) == 0)
        answer = yr_close(&held.session, held.bytes, sizeof held.bytes, judged, sizeof judged);
}

/* Whether the judge's answer and sheet are those of the sample. */
static int is_judged(const struct sample *sample)
{
    return answer == SHEET_HEADER + 2 * sample->judged && sheet_verdict(judged) == sample->verdict;
}

/* Calls the entry of that name; whether there is one and it answers as it has to. */
static int call(const char *entry, const struct sample *sample, const struct log *log,
                const struct sheet *order)
{
    if (strcmp(entry, "check") == 0) {
        measured_check(log);
        return answer == sample->operations;
    }
    if (strcmp(entry, "replay") == 0 && sample->verdict == 0) {
        measured_replay(log, order);
        return answer == 1;
    }
    if (strcmp(entry, "judge") == 0) {
        measured_judge(log);
        return is_judged(sample);
    }
    if (strcmp(entry, "page") == 0 && log->records <= YR_PAGE_RECORDS) {
        measured_page(log);
        return answer == YR_PAGE_MAX / YR_PAGE_RECORDS * sample->operations;
    }
    if (strcmp(entry, "feed") == 0 && log->records > 0) {
        hold(&held, YR_OPEN, log, log->records - 1);
        measured_feed(log);
        return YR_REFUSED(answer) == 0 && held.session.used == log->length;
    }
    if (strcmp(entry, "session") == 0) {
        measured_session(log);
        return is_judged(sample) && held.session.used == log->length;
    }
    return 0;
}

static int measure(const char *entry, const struct sample *sample)
{
    static struct log log;
    static struct sheet order;
    sample->make(&log, &order);
    if (!call(entry, sample, &log, &order)) {
        fprintf(stderr, "%s of %s: refused %lu, value %lu\n", entry, sample->name,
                (unsigned long)YR_REFUSED(answer), (unsigned long)YR_VALUE(answer));
        return 1;
    }
    printf("%u %u %lu ", log.records, sample->operations, (unsigned long)log.length);
    if (sample->verdict == 0)
        printf("%lu ", (unsigned long)(order.length - SHEET_HEADER) / 2);
    else
        printf("- ");
    printf("%u %u\n", sample->verdict, sample->judged);
    return 0;
}

int main(int argc, char **argv)
{
    for (size_t i = 0; argc == 3 && i < sizeof samples / sizeof *samples; i++)
        if (strcmp(argv[2], samples[i].name) == 0)
            return measure(argv[1], &samples[i]);
    fprintf(stderr, "usage: measure ENTRY LOG\n");
    return 2;
}
