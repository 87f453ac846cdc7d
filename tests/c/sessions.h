/*
 * Sessions for the measurements of stack and instructions, made without the library.
 */

#ifndef SESSIONS_H
#define SESSIONS_H

#include <stdint.h>
#include <string.h>

#include "logs.h"
#include "yauponroof.h"

/* A session and its buffer. */
struct held {
    yr_session session;
    uint8_t bytes[YR_LOG_MAX];
};

/* Makes the session of that stage that holds the first n records of a log. */
static inline void hold(struct held *held, uint32_t stage, const struct log *log, unsigned n)
{
    held->session.stage = stage;
    held->session.used = (uint32_t)log_start(log, n);
    memcpy(held->bytes, log->bytes, held->session.used);
    held->bytes[1] = (uint8_t)(n >> 8);
    held->bytes[2] = (uint8_t)n;
}

#endif /* SESSIONS_H */
