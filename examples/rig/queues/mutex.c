/*
 * A correct queue: an array behind a lock.
 */

#include "locked_array.h"

QUEUE_KIND(mutex) = {"first in, first out", make, destroy, NULL, NULL, add, take};
