/*
 * Trouble is what keeps the rig from giving a verdict that counts: a fault of its arguments, of the
 * machine or of the rig itself. It is said on standard error and ends the run.
 */

#ifndef TROUBLE_H
#define TROUBLE_H

#include <stdarg.h>
#include <stdio.h>

/* Says what went wrong; answers 0, so that what failed can say and answer it at once. */
static inline int trouble(const char *format, ...)
{
    va_list arguments;
    va_start(arguments, format);
    fprintf(stderr, "rig: ");
    vfprintf(stderr, format, arguments);
    fprintf(stderr, "\n");
    va_end(arguments);
    return 0;
}

#endif /* TROUBLE_H */
