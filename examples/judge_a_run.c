/*
 * Records two short runs of a queue, judges them, and puts each verdict to the test: an order is
 * replayed, the excerpt of a pattern is judged by itself.
 */

#include <stdio.h>
#include <yauponroof.h>
#include <yauponroof_recorder.h>

static uint8_t run[YR_LOG_MAX], sheet[YR_SHEET_MAX], excerpt[YR_LOG_MAX];

/* Client 1 adds 7; then client 2 removes, and gets it or finds the queue empty. The tick rises with
   every record. The return of the add has a lower tick than the call of the remove, so the add
   precedes the remove. */
static size_t record(int found)
{
    yr_recorder recorder;

    yr_recorder_begin(&recorder, run, sizeof run);
    yr_recorder_add_called(&recorder, 1, 1, 7);
    yr_recorder_add_returned(&recorder, 1, 2);
    yr_recorder_remove_called(&recorder, 2, 3);
    if (found)
        yr_recorder_remove_returned(&recorder, 2, 4, 7);
    else
        yr_recorder_remove_empty(&recorder, 2, 4);
    return yr_recorder_length(&recorder);
}

static void print_sheet(void)
{
    unsigned listed = 256u * sheet[2] + sheet[3];

    if (sheet[1] == 0)
        printf("order");
    else
        printf("pattern %u", sheet[1]);
    for (unsigned i = 0; i < listed; i++)
        printf(" %u", 256u * sheet[4 + 2 * i] + sheet[5 + 2 * i]);
    printf("\n");
}

static void judge_excerpt(size_t length)
{
    yr_answer written = yr_excerpt(run, length, excerpt, sizeof excerpt);

    printf("  its excerpt, %u bytes: ", YR_VALUE(written));
    yr_judge(excerpt, YR_VALUE(written), sheet, sizeof sheet);
    print_sheet();
}

static void judge(size_t length)
{
    yr_answer judged = yr_judge(run, length, sheet, sizeof sheet);

    if (YR_REFUSED(judged)) {
        printf("refused %u, record %u\n", YR_REFUSED(judged), YR_VALUE(judged));
        return;
    }
    print_sheet();
    if (sheet[1] == 0)
        printf("  replay says %u\n", YR_VALUE(yr_replay(run, length, sheet, YR_VALUE(judged))));
    else
        judge_excerpt(length);
}

int main(void)
{
    size_t length = record(1);

    judge(length);
    judge(length - 1); /* the log is cut short */
    length = record(0);
    judge(length);
    return 0;
}
