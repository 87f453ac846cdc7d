/*
 * Prints the page of a log: a line for each operation, with a column for each record as it stands in
 * the log. Operations without a column in common overlap all the same if one returns and the other is
 * called at the same tick, which a page does not show. Reads the log from the file that is named, or
 * from standard input. If the log is refused, or cannot be read, or the page cannot be written, it
 * says so on standard error, and the exit status is 2.
 */

#include <stdio.h>
#include <yauponroof.h>

enum { PRINTED = 0, TROUBLE = 2 };

/* One byte more than any log has: a longer file is not read further, and is refused all the same. */
static uint8_t run[YR_LOG_MAX + 1];

static uint8_t page[YR_PAGE_MAX];

static int trouble_with(const char *file)
{
    perror(file);
    return TROUBLE;
}

static int refused(yr_answer answer)
{
    if (YR_REFUSED(answer) == YR_REFUSAL_PAGE)
        fprintf(stderr, "the log has no page: it has more than %d records\n", YR_PAGE_RECORDS);
    else
        fprintf(stderr, "refused %u, record %u\n", YR_REFUSED(answer), YR_VALUE(answer));
    return TROUBLE;
}

static int print_page(size_t length)
{
    yr_answer answer = yr_page(run, length, page, sizeof page);

    if (YR_REFUSED(answer))
        return refused(answer);
    if (fwrite(page, 1, YR_VALUE(answer), stdout) < YR_VALUE(answer) || fflush(stdout) != 0)
        return trouble_with("standard output");
    return PRINTED;
}

int main(int argc, char **argv)
{
    const char *name = argc == 2 ? argv[1] : "standard input";
    FILE *file = argc == 2 ? fopen(name, "rb") : stdin;
    size_t length;

    if (argc > 2) {
        fprintf(stderr, "usage: print_page [FILE]\n");
        return TROUBLE;
    }
    if (file == NULL)
        return trouble_with(name);
    length = fread(run, 1, sizeof run, file);
    if (ferror(file))
        return trouble_with(name);
    return print_page(length);
}
