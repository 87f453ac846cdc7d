/*
 * A fault on purpose. It stands between the fuzz target and the library, by the linker's --wrap, in a
 * second target that has to find it. In logs where some other operation was called before the add of
 * the overtaken value, pattern 5 is told as pattern 4.
 */

#include "yauponroof.h"

enum { VERDICT = 1, FIRST_LISTED = 4, STUCK = 4, OVERTAKEN = 5 };

yr_answer __real_yr_judge(const uint8_t *log, size_t log_len, uint8_t *sheet, size_t sheet_len);
yr_answer __wrap_yr_judge(const uint8_t *log, size_t log_len, uint8_t *sheet, size_t sheet_len);

yr_answer __wrap_yr_judge(const uint8_t *log, size_t log_len, uint8_t *sheet, size_t sheet_len)
{
    yr_answer answer = __real_yr_judge(log, log_len, sheet, sheet_len);
    int is_overtaken = YR_REFUSED(answer) == 0 && sheet[VERDICT] == OVERTAKEN;
    if (is_overtaken && (sheet[FIRST_LISTED] != 0 || sheet[FIRST_LISTED + 1] != 0))
        sheet[VERDICT] = STUCK;
    return answer;
}
