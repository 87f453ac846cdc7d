/*
 * Stands in for the library and answers what the compiler is told, so that the check can see what the
 * rig does if an answer is wrong. If nothing is told, every log has an order, and it is legal, and the
 * excerpt of a log with a remove that has not returned is refused.
 */

#include <string.h>

#include "yauponroof.h"

/* The verdicts on the log of a round and on its excerpt, how many operations a sheet says that it lists
   (it lists none), what replay says, how many adds the excerpt has, and how many bytes its page has. */
#ifndef LOG_VERDICT
#define LOG_VERDICT 0
#endif
#ifndef EXCERPT_VERDICT
#define EXCERPT_VERDICT LOG_VERDICT
#endif
#ifndef LISTED
#define LISTED 0
#endif
#ifndef REPLAY_SAYS
#define REPLAY_SAYS 1
#endif
#ifndef EXCERPT_ADDS
#define EXCERPT_ADDS 1
#endif
#ifndef PAGE_LENGTH
#define PAGE_LENGTH (81 * EXCERPT_ADDS)
#endif

/* Of a log with a remove that has not returned: how often its sheet lists this remove, and whether it
   has an excerpt all the same. */
#ifndef PENDING_LISTED
#define PENDING_LISTED 0
#endif
#ifndef PENDING_EXCERPT
#define PENDING_EXCERPT 0
#endif

/* What is refused, and under which number; always for record 5. */
enum { NOTHING, LOG, ORDER, EXCERPT, LOG_OF_EXCERPT, PAGE };
#ifndef REFUSED
#define REFUSED NOTHING
#endif
#ifndef REFUSAL
#define REFUSAL YR_REFUSAL_VALUE
#endif
#define REFUSING ((yr_answer)REFUSAL << 32 | 5)

/* The excerpt of every log has open adds alone, each by a client of its own. It is known by its length:
   the check's rounds have no fewer operations, all have returned, and each takes 16 bytes or more.
   Rounds in which a client is lost have fewer, but more than the one add that excerpts then have. */
enum { EXCERPT_LENGTH = 3 + 12 * EXCERPT_ADDS };

/* Whether the client of the record at this place has a later record. */
static int goes_on(const uint8_t *log, size_t log_len, size_t at)
{
    for (size_t later = at + 1 + log[at]; later < log_len; later += 1 + log[later])
        if (memcmp(log + later + 2, log + at + 2, 2) == 0)
            return 1;
    return 0;
}

/* The number of the remove that has not returned, or -1 if all have. Calls are of kind 1 or 2. */
static int pending_remove(const uint8_t *log, size_t log_len)
{
    int operation = -1;
    for (size_t at = 3; at < log_len; at += 1 + log[at]) {
        operation += log[at + 1] <= 2;
        if (log[at + 1] == 2 && !goes_on(log, log_len, at))
            return operation;
    }
    return -1;
}

/* Writes a sheet that lists nothing, unless a remove has not returned. */
yr_answer yr_judge(const uint8_t *log, size_t log_len, uint8_t *sheet, size_t sheet_len)
{
    int of_excerpt = log_len == EXCERPT_LENGTH;
    int pending = pending_remove(log, log_len);
    int listed = pending < 0 ? 0 : PENDING_LISTED;
    const uint8_t header[] = {1, of_excerpt ? EXCERPT_VERDICT : LOG_VERDICT, 0,
                              (uint8_t)(LISTED + listed)};
    const uint8_t number[] = {(uint8_t)(pending >> 8), (uint8_t)pending};
    (void)sheet_len;
    if (REFUSED == (of_excerpt ? LOG_OF_EXCERPT : LOG))
        return REFUSING;
    memcpy(sheet, header, sizeof header);
    for (int i = 0; i < listed; i++)
        memcpy(sheet + sizeof header + 2 * i, number, sizeof number);
    return sizeof header + 2 * (size_t)listed;
}

yr_answer yr_replay(const uint8_t *log, size_t log_len, const uint8_t *sheet, size_t sheet_len)
{
    (void)log, (void)log_len, (void)sheet, (void)sheet_len;
    return REFUSED == ORDER ? REFUSING : REPLAY_SAYS;
}

yr_answer yr_excerpt(const uint8_t *log, size_t log_len, uint8_t *out, size_t out_len)
{
    const uint8_t header[] = {1, 0, EXCERPT_ADDS};
    (void)out_len;
    if (REFUSED == EXCERPT)
        return REFUSING;
    if (!PENDING_EXCERPT && pending_remove(log, log_len) >= 0)
        return (yr_answer)32 << 32;
    memcpy(out, header, sizeof header);
    for (int i = 0; i < EXCERPT_ADDS; i++) {
        const uint8_t call[] = {11, 1, 0, (uint8_t)i, 0, 0, 0, 0, 0, 0, 0, (uint8_t)i};
        memcpy(out + sizeof header + i * sizeof call, call, sizeof call);
    }
    return EXCERPT_LENGTH;
}

yr_answer yr_page(const uint8_t *log, size_t log_len, uint8_t *page, size_t page_len)
{
    (void)log, (void)log_len;
    if (REFUSED == PAGE)
        return REFUSING;
    memset(page, '#', PAGE_LENGTH < page_len ? PAGE_LENGTH : page_len);
    return PAGE_LENGTH;
}
