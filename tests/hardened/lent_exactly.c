/*
 * Stands between a test program and the library, by the linker's --wrap, where the program runs
 * under memcheck. All that a call is lent goes to it as blocks of the heap of just that length, so
 * that every access outside of them is seen. What a call may not depend on is undefined: the bytes
 * that it may write to, those of a session's buffer behind the used ones, a session that is to be
 * begun. What it answers and what it says that it wrote have to be defined, and what it may not
 * write to has to be as it was.
 */

#include <stdint.h>
#include <stdio.h>
#include <stdlib.h>
#include <string.h>

#include <valgrind/memcheck.h>

#include "yauponroof.h"

static void require(int holds, const char *what)
{
    if (!holds) {
        printf("failed: %s\n", what);
        exit(1);
    }
}

/* A block that holds a copy of the bytes. */
static void *lend(const void *bytes, size_t length)
{
    void *block = malloc(length);
    require(block != NULL, "a block to lend");
    memcpy(block, bytes, length);
    return block;
}

/* The same, and nothing may depend on what the bytes are. */
static void *lend_undefined(const void *bytes, size_t length)
{
    void *block = lend(bytes, length);
    VALGRIND_MAKE_MEM_UNDEFINED(block, length);
    return block;
}

/* The same for those of a session's buffer that are not used. */
static uint8_t *lend_buffer(const yr_session *s, const uint8_t *buf, size_t len)
{
    uint8_t *block = lend(buf, len);
    if (s->used < len)
        VALGRIND_MAKE_MEM_UNDEFINED(block + s->used, len - s->used);
    return block;
}

/* Takes back a block that was lent to be changed. */
static void take_back(void *block, void *bytes, size_t length)
{
    VALGRIND_MAKE_MEM_DEFINED(block, length);
    memcpy(bytes, block, length);
    free(block);
}

/* Takes back a block that was lent to be read. */
static void take_back_unchanged(void *block, const void *bytes, size_t length)
{
    VALGRIND_MAKE_MEM_DEFINED(block, length);
    require(memcmp(block, bytes, length) == 0, "bytes that were lent to be read are unchanged");
    free(block);
}

/* Takes back a block that a call was lent for what it writes. */
static void take_back_written(void *block, void *bytes, size_t length, yr_answer answer)
{
    if (YR_REFUSED(answer) == 0)
        VALGRIND_CHECK_MEM_IS_DEFINED(block, YR_VALUE(answer));
    take_back(block, bytes, length);
}

/* The answer of a call, which has to be defined. */
static yr_answer answered(yr_answer answer)
{
    VALGRIND_CHECK_VALUE_IS_DEFINED(answer);
    return answer;
}

yr_answer __real_yr_check(const uint8_t *log, size_t log_len);
yr_answer __wrap_yr_check(const uint8_t *log, size_t log_len);

yr_answer __wrap_yr_check(const uint8_t *log, size_t log_len)
{
    uint8_t *lent_log = lend(log, log_len);
    yr_answer answer = answered(__real_yr_check(lent_log, log_len));
    take_back_unchanged(lent_log, log, log_len);
    return answer;
}

yr_answer __real_yr_replay(const uint8_t *log, size_t log_len, const uint8_t *sheet,
                           size_t sheet_len);
yr_answer __wrap_yr_replay(const uint8_t *log, size_t log_len, const uint8_t *sheet,
                           size_t sheet_len);

yr_answer __wrap_yr_replay(const uint8_t *log, size_t log_len, const uint8_t *sheet,
                           size_t sheet_len)
{
    uint8_t *lent_log = lend(log, log_len), *lent_sheet = lend(sheet, sheet_len);
    yr_answer answer = answered(__real_yr_replay(lent_log, log_len, lent_sheet, sheet_len));
    take_back_unchanged(lent_log, log, log_len);
    take_back_unchanged(lent_sheet, sheet, sheet_len);
    return answer;
}

/* A call that reads a log and writes to a buffer. */
typedef yr_answer writer(const uint8_t *log, size_t log_len, uint8_t *out, size_t out_len);

/* Such a call, with everything lent exactly. */
static yr_answer lend_to(writer *call, const uint8_t *log, size_t log_len, uint8_t *out,
                         size_t out_len)
{
    uint8_t *lent_log = lend(log, log_len), *lent_out = lend_undefined(out, out_len);
    yr_answer answer = answered(call(lent_log, log_len, lent_out, out_len));
    take_back_unchanged(lent_log, log, log_len);
    take_back_written(lent_out, out, out_len, answer);
    return answer;
}

writer __real_yr_judge, __wrap_yr_judge, __real_yr_excerpt, __wrap_yr_excerpt;
writer __real_yr_page, __wrap_yr_page;

yr_answer __wrap_yr_judge(const uint8_t *log, size_t log_len, uint8_t *sheet, size_t sheet_len)
{
    return lend_to(__real_yr_judge, log, log_len, sheet, sheet_len);
}

yr_answer __wrap_yr_excerpt(const uint8_t *log, size_t log_len, uint8_t *out, size_t out_len)
{
    return lend_to(__real_yr_excerpt, log, log_len, out, out_len);
}

yr_answer __wrap_yr_page(const uint8_t *log, size_t log_len, uint8_t *page, size_t page_len)
{
    return lend_to(__real_yr_page, log, log_len, page, page_len);
}

yr_answer __real_yr_narrow(const uint8_t *log, size_t log_len, const uint32_t *values, size_t count,
                           uint8_t *out, size_t out_len);
yr_answer __wrap_yr_narrow(const uint8_t *log, size_t log_len, const uint32_t *values, size_t count,
                           uint8_t *out, size_t out_len);

yr_answer __wrap_yr_narrow(const uint8_t *log, size_t log_len, const uint32_t *values, size_t count,
                           uint8_t *out, size_t out_len)
{
    uint8_t *lent_log = lend(log, log_len), *lent_out = lend_undefined(out, out_len);
    uint32_t *lent_values = lend(values, count * sizeof *values);
    yr_answer answer =
        answered(__real_yr_narrow(lent_log, log_len, lent_values, count, lent_out, out_len));
    take_back_unchanged(lent_log, log, log_len);
    take_back_unchanged(lent_values, values, count * sizeof *values);
    take_back_written(lent_out, out, out_len, answer);
    return answer;
}

yr_answer __real_yr_begin(yr_session *s, uint8_t *buf, size_t len);
yr_answer __wrap_yr_begin(yr_session *s, uint8_t *buf, size_t len);

yr_answer __wrap_yr_begin(yr_session *s, uint8_t *buf, size_t len)
{
    yr_session *lent_s = lend_undefined(s, sizeof *s);
    uint8_t *lent_buf = lend_undefined(buf, len);
    yr_answer answer = answered(__real_yr_begin(lent_s, lent_buf, len));
    if (YR_REFUSED(answer) == 0)
        VALGRIND_CHECK_MEM_IS_DEFINED(lent_s, sizeof *lent_s);
    take_back(lent_s, s, sizeof *s);
    take_back_written(lent_buf, buf, len, answer);
    return answer;
}

yr_answer __real_yr_feed(yr_session *s, uint8_t *buf, size_t len, const uint8_t *record,
                         size_t record_len);
yr_answer __wrap_yr_feed(yr_session *s, uint8_t *buf, size_t len, const uint8_t *record,
                         size_t record_len);

yr_answer __wrap_yr_feed(yr_session *s, uint8_t *buf, size_t len, const uint8_t *record,
                         size_t record_len)
{
    yr_session *lent_s = lend(s, sizeof *s);
    uint8_t *lent_buf = lend_buffer(s, buf, len), *lent_record = lend(record, record_len);
    yr_answer answer = answered(__real_yr_feed(lent_s, lent_buf, len, lent_record, record_len));
    VALGRIND_CHECK_MEM_IS_DEFINED(lent_s, sizeof *lent_s);
    if (YR_REFUSED(answer) == 0)
        VALGRIND_CHECK_MEM_IS_DEFINED(lent_buf, lent_s->used);
    take_back(lent_s, s, sizeof *s);
    take_back(lent_buf, buf, len);
    take_back_unchanged(lent_record, record, record_len);
    return answer;
}

yr_answer __real_yr_close(yr_session *s, const uint8_t *buf, size_t len, uint8_t *sheet,
                          size_t sheet_len);
yr_answer __wrap_yr_close(yr_session *s, const uint8_t *buf, size_t len, uint8_t *sheet,
                          size_t sheet_len);

yr_answer __wrap_yr_close(yr_session *s, const uint8_t *buf, size_t len, uint8_t *sheet,
                          size_t sheet_len)
{
    yr_session *lent_s = lend(s, sizeof *s);
    uint8_t *lent_buf = lend_buffer(s, buf, len), *lent_sheet = lend_undefined(sheet, sheet_len);
    yr_answer answer = answered(__real_yr_close(lent_s, lent_buf, len, lent_sheet, sheet_len));
    VALGRIND_CHECK_MEM_IS_DEFINED(lent_s, sizeof *lent_s);
    take_back(lent_s, s, sizeof *s);
    take_back_unchanged(lent_buf, buf, len);
    take_back_written(lent_sheet, sheet, sheet_len, answer);
    return answer;
}

yr_answer __real_yr_sheet(const yr_session *s, const uint8_t *buf, size_t len, uint8_t *sheet,
                          size_t sheet_len);
yr_answer __wrap_yr_sheet(const yr_session *s, const uint8_t *buf, size_t len, uint8_t *sheet,
                          size_t sheet_len);

yr_answer __wrap_yr_sheet(const yr_session *s, const uint8_t *buf, size_t len, uint8_t *sheet,
                          size_t sheet_len)
{
    yr_session *lent_s = lend(s, sizeof *s);
    uint8_t *lent_buf = lend_buffer(s, buf, len), *lent_sheet = lend_undefined(sheet, sheet_len);
    yr_answer answer = answered(__real_yr_sheet(lent_s, lent_buf, len, lent_sheet, sheet_len));
    take_back_unchanged(lent_s, s, sizeof *s);
    take_back_unchanged(lent_buf, buf, len);
    take_back_written(lent_sheet, sheet, sheet_len, answer);
    return answer;
}

yr_answer __real_yr_session_excerpt(const yr_session *s, const uint8_t *buf, size_t len,
                                    uint8_t *out, size_t out_len);
yr_answer __wrap_yr_session_excerpt(const yr_session *s, const uint8_t *buf, size_t len,
                                    uint8_t *out, size_t out_len);

yr_answer __wrap_yr_session_excerpt(const yr_session *s, const uint8_t *buf, size_t len,
                                    uint8_t *out, size_t out_len)
{
    yr_session *lent_s = lend(s, sizeof *s);
    uint8_t *lent_buf = lend_buffer(s, buf, len), *lent_out = lend_undefined(out, out_len);
    yr_answer answer = answered(__real_yr_session_excerpt(lent_s, lent_buf, len, lent_out, out_len));
    take_back_unchanged(lent_s, s, sizeof *s);
    take_back_unchanged(lent_buf, buf, len);
    take_back_written(lent_out, out, out_len, answer);
    return answer;
}
