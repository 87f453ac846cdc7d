/*
 * Counts the checks of a test program: a line for each that fails, and last 'N passed, M failed'.
 */

#ifndef COUNT_H
#define COUNT_H

#include <stdio.h>

#include "yauponroof.h"

static unsigned passed, failed;

static void count(int holds, const char *what)
{
    if (holds) {
        passed++;
    } else {
        failed++;
        printf("failed: %s\n", what);
    }
}

/* Counts whether the answer is this refusal, or 0 for none, with this value or index. */
static inline void expect_answer(yr_answer answer, uint32_t refusal, uint32_t value,
                                 const char *what)
{
    int holds = YR_REFUSED(answer) == refusal && YR_VALUE(answer) == value;
    count(holds, what);
    if (!holds)
        printf("    answered %lu %lu, not %lu %lu\n", (unsigned long)YR_REFUSED(answer),
               (unsigned long)YR_VALUE(answer), (unsigned long)refusal, (unsigned long)value);
}

/* The last line, and the program's exit status. */
static int counted(void)
{
    printf("%u passed, %u failed\n", passed, failed);
    return failed != 0;
}

#endif /* COUNT_H */
