/*
 * Feeds the records of a run to a session as they come, tries what is refused on the way, and closes
 * it: the sheet is the one of the whole log. Then it does the same with a run of which one record
 * never comes, since a consumer was killed.
 */

#include <stdio.h>
#include <yauponroof.h>

/* Client 1 adds 7; then clients 2 and 3 remove and find the queue empty, although 7 is there. The
   ticks are 1 to 6. The return of the add has a lower tick than the calls of the removes, so the add
   precedes the removes. */
static const uint8_t records[][YR_RECORD_MAX] = {
    {11, 1, 0, 1, 0, 0, 0, 1, 0, 0, 0, 7},
    {7, 3, 0, 1, 0, 0, 0, 2},
    {7, 2, 0, 2, 0, 0, 0, 3},
    {7, 2, 0, 3, 0, 0, 0, 4},
    {7, 5, 0, 3, 0, 0, 0, 5},
    {7, 5, 0, 2, 0, 0, 0, 6},
};

static yr_session session;
static uint8_t buffer[YR_LOG_MAX], sheet[YR_SHEET_MAX], excerpt[YR_LOG_MAX];

static void print(const char *what, yr_answer answer)
{
    if (YR_REFUSED(answer))
        printf("%s: refused %u, record %u\n", what, YR_REFUSED(answer), YR_VALUE(answer));
    else
        printf("%s: %u bytes\n", what, YR_VALUE(answer));
}

static void print_sheet(void)
{
    unsigned listed = 256u * sheet[2] + sheet[3];

    if (sheet[1] == 0)
        printf("order");
    else
        printf("pattern %u", sheet[1]);
    for (unsigned i = 0; i < listed; i++)
        printf(" %u", 256u * sheet[4 + 2 * i] + sheet[5 + 2 * i]);
    printf("\n");
}

static yr_answer begin(void)
{
    return yr_begin(&session, buffer, sizeof buffer);
}

static yr_answer feed(int i)
{
    return yr_feed(&session, buffer, sizeof buffer, records[i], 1 + records[i][0]);
}

static yr_answer close(void)
{
    return yr_close(&session, buffer, sizeof buffer, sheet, sizeof sheet);
}

static yr_answer make_excerpt(void)
{
    return yr_session_excerpt(&session, buffer, sizeof buffer, excerpt, sizeof excerpt);
}

static void feed_all(void)
{
    print("begin", begin());
    print("feed", feed(0));
    print("the same record again", feed(0));
    print("feed", feed(1));
    print("feed", feed(2));
    print("feed", feed(3));
    print("close while two removes are open", close());
    print("feed", feed(4));
    print("feed", feed(5));
    print("close", close());
    print_sheet();
    print("excerpt", make_excerpt());
    print("feed when closed", feed(0));
}

/* Without the last record nobody knows whether client 2 took 7. There is an order if it did. */
static void lose_client(void)
{
    printf("the same run, but client 2 never comes back\n");
    begin();
    for (int i = 0; i < 5; i++)
        feed(i);
    print("close while one remove is open", close());
    print_sheet();
    print("excerpt", make_excerpt());
}

int main(void)
{
    feed_all();
    lose_client();
    return 0;
}
