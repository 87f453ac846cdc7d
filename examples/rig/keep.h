/*
 * Files of a verdict.
 */

#ifndef KEEP_H
#define KEEP_H

#include "round.h"
#include "verdict.h"

/* Makes a folder, unless it is there; 0 if there was trouble, which is said. */
int make_folder(const char *folder);

/* Writes NAME.log and NAME.sheet into the folder, if there is an excerpt also NAME.excerpt.log and, if
   that has a page, NAME.excerpt.page. Of these two, what this verdict lacks is removed: an earlier run
   may have left it. 0 if there was trouble, which is said. */
int keep(const char *folder, const char *name, const struct log *log,
         const struct verdict *verdict);

#endif /* KEEP_H */
