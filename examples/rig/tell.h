/*
 * Tells a verdict in words.
 */

#ifndef TELL_H
#define TELL_H

#include "round.h"
#include "verdict.h"

/* The name of a pattern, 1 to 6. */
const char *pattern_name(unsigned pattern);

/* Prints the pattern of a log, its operations and its excerpt, record by record and as a page. If a
   client was lost, there is no excerpt: prints the remove that never returned and the log's page. */
void tell_pattern(const struct log *log, const struct verdict *verdict, const struct loss *loss);

/* Prints that a log in which a client was to be lost has an order, the remove that never returned, and
   what the order makes of it. */
void tell_order(const struct log *log, const struct verdict *verdict, const struct loss *loss);

#endif /* TELL_H */
