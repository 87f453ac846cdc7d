/*
 * Drives shared queues by many clients, judges the log of every round and tells the verdicts.
 */

#include <stdio.h>
#include <string.h>

#include "keep.h"
#include "options.h"
#include "queues.h"
#include "round.h"
#include "tell.h"
#include "trouble.h"
#include "verdict.h"

/* What comes of driving queues, as the exit status tells it. */
enum outcome { ALL_WELL, PATTERN_FOUND, TROUBLE };

/* What came of the rounds of a queue. */
struct tally {
    unsigned rounds;
    unsigned verdicts[PATTERNS + 1];  /* how many orders, and how often each pattern */
    unsigned stops[STOPS];            /* how often no client was lost, and each way to lose one */
    unsigned listed;                  /* how many orders list the remove of a lost client */
    unsigned told;                    /* the round that log, loss and verdict are of */
    struct log log;                   /* that of the first pattern, or of the last round */
    struct loss loss;
    struct verdict verdict;
};

static int found_pattern(const struct tally *tally)
{
    return tally->verdicts[0] < tally->rounds;
}

/* Runs a round and counts its verdict. */
static int tally_round(const struct queue *queue, const struct options *options,
                       struct supply *supply, struct tally *tally)
{
    static struct log log;
    static struct loss loss;
    static struct verdict verdict;
    if (!run_round(queue->kind, &options->load, supply, &log, &loss) || !judge(&log, &verdict))
        return trouble("that was round %u of %s", tally->rounds + 1, queue->name);
    int first = !found_pattern(tally);
    tally->rounds++;
    tally->verdicts[sheet_verdict(&verdict.sheet)]++;
    tally->stops[loss.stop]++;
    tally->listed += verdict.lists_pending;
    if (first) {
        tally->told = tally->rounds;
        tally->log = log;
        tally->loss = loss;
        tally->verdict = verdict;
    }
    return 1;
}

static int tally_rounds(const struct queue *queue, const struct options *options,
                        struct tally *tally)
{
    struct supply supply = {options->seed, 1};
    memset(tally, 0, sizeof *tally);
    while (tally->rounds < options->rounds && (options->go_on || !found_pattern(tally)))
        if (!tally_round(queue, options, &supply, tally))
            return 0;
    return 1;
}

/* A number of things, and an s behind their name if they are not one. */
static void tell_number(unsigned number, const char *name)
{
    printf("%u %s%s", number, name, number == 1 ? "" : "s");
}

/* The line of a queue. A client that is lost does not make all of its operations. */
static void tell_tally(const struct queue *queue, const struct load *load,
                       const struct tally *tally)
{
    printf("%s: ", queue->name);
    tell_number(tally->rounds, "round");
    printf(load->loses_client ? " of up to " : " of ");
    tell_number(load->operations, "operation");
    printf(" by %u clients: ", load->clients);
    tell_number(tally->verdicts[0], "order");
    for (unsigned pattern = 1; pattern <= PATTERNS; pattern++)
        if (tally->verdicts[pattern] > 0)
            printf(", %u of pattern %u (%s)", tally->verdicts[pattern], pattern,
                   pattern_name(pattern));
    printf("\n");
}

/* How clients were lost. */
static void tell_losses(const struct tally *tally)
{
    printf("    clients lost: %u before a remove, %u after one\n", tally->stops[STOP_BEFORE],
           tally->stops[STOP_AFTER]);
    if (tally->stops[NO_STOP] > 0)
        printf("    rounds without a remove, in which no client was lost: %u\n",
               tally->stops[NO_STOP]);
    printf("    orders that list the remove of the lost client: %u\n", tally->listed);
}

/* The verdict on the round that is told, if there is more to it than that all is well. */
static void tell_round(const struct queue *queue, const struct load *load,
                       const struct tally *tally)
{
    if (found_pattern(tally)) {
        printf("    promised: %s\n", queue->kind->promise);
        printf("round %u: ", tally->told);
        tell_pattern(&tally->log, &tally->verdict, &tally->loss);
    } else if (load->loses_client) {
        printf("round %u: ", tally->told);
        tell_order(&tally->log, &tally->verdict, &tally->loss);
    }
}

static enum outcome drive(const struct queue *queue, const struct options *options)
{
    static struct tally tally;
    if (!tally_rounds(queue, options, &tally))
        return TROUBLE;
    tell_tally(queue, &options->load, &tally);
    if (options->load.loses_client)
        tell_losses(&tally);
    tell_round(queue, &options->load, &tally);
    if (options->folder != NULL &&
        !keep(options->folder, queue->name, &tally.log, &tally.verdict))
        return TROUBLE;
    return found_pattern(&tally) ? PATTERN_FOUND : ALL_WELL;
}

/* Drives the queues that are wanted, until there is trouble; the worst that came of them. */
static enum outcome drive_all(const struct options *options)
{
    enum outcome worst = ALL_WELL;
    for (const struct queue *queue = queues; queue->name != NULL && worst != TROUBLE; queue++) {
        if (!is_wanted(options, queue->name))
            continue;
        enum outcome outcome = drive(queue, options);
        if (outcome > worst)
            worst = outcome;
    }
    return worst;
}

static void list_queues(void)
{
    for (const struct queue *queue = queues; queue->name != NULL; queue++)
        printf("%s: %s\n", queue->name, queue->kind->promise);
}

static enum outcome do_task(const struct options *options)
{
    switch (options->task) {
    case TELL_USAGE:
        tell_usage(stdout);
        return ALL_WELL;
    case LIST_QUEUES:
        list_queues();
        return ALL_WELL;
    default:
        if (options->folder != NULL && !make_folder(options->folder))
            return TROUBLE;
        return drive_all(options);
    }
}

int main(int argc, char **argv)
{
    struct options options;
    setvbuf(stdout, NULL, _IOLBF, BUFSIZ);  /* what is told is not lost if a queue crashes */
    if (argc == 0 || !read_options(argv + 1, &options))
        return TROUBLE;
    enum outcome outcome = do_task(&options);
    if (fflush(stdout) != 0 || ferror(stdout)) {
        trouble("not all could be printed");
        return TROUBLE;
    }
    return outcome;
}
