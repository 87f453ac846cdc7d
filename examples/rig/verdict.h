/*
 * The verdict on a log with its grounds, which are tried every time.
 */

#ifndef VERDICT_H
#define VERDICT_H

#include <stddef.h>
#include <stdint.h>

#include "round.h"
#include "yauponroof.h"

/* The highest number of a pattern. */
#define PATTERNS 6

struct sheet {
    uint8_t bytes[YR_SHEET_MAX];
    size_t length;
};

/* A page, or none if it has no bytes: what is drawn has operations, and each of them has a line. */
struct page {
    uint8_t bytes[YR_PAGE_MAX];
    size_t length;
};

/* The sheet of a log; with a pattern also the excerpt, the excerpt's own sheet and, unless it has more
   than YR_PAGE_RECORDS records, its page. A log with a remove that never returned has no excerpt. With
   a pattern its own page takes the place of the excerpt's. */
struct verdict {
    struct sheet sheet;
    int lists_pending;       /* whether it is an order that lists the remove that never returned */
    uint32_t pending_takes;  /* the value that this remove takes in the order */
    struct log excerpt;      /* of no bytes if there is none */
    struct sheet excerpt_sheet;
    struct page page;
};

/* The verdict on a sheet: 0 for an order, or the number of a pattern. */
unsigned sheet_verdict(const struct sheet *sheet);

/* How many operations a sheet lists, and the number of the one that stands at place i. */
unsigned sheet_count(const struct sheet *sheet);
unsigned sheet_operation(const struct sheet *sheet, unsigned i);

/* Judges the log of a round. An order is replayed, an excerpt judged by itself and drawn as a page. 0 if
   there was trouble, which is said: a refusal, a sheet that is none of the log, an order that is not
   legal, an excerpt with another verdict, a page that is none of the excerpt. If a remove of the log
   never returned, it is also trouble if an order lists it twice or where it takes nothing, if a pattern
   lists it, or if there is an excerpt. */
int judge(const struct log *log, struct verdict *verdict);

#endif /* VERDICT_H */
