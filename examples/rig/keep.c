#include "keep.h"

#include <errno.h>
#include <limits.h>
#include <stdio.h>
#include <string.h>
#include <sys/stat.h>

#include "trouble.h"

int make_folder(const char *folder)
{
    if (mkdir(folder, 0777) != 0 && errno != EEXIST)
        return trouble("%s: %s", folder, strerror(errno));
    return 1;
}

/* Puts the path of a file together; 0 if it is too long, which is said. */
static int find_path(const char *folder, const char *name, const char *ending,
                     char path[PATH_MAX])
{
    int size = snprintf(path, PATH_MAX, "%s/%s%s", folder, name, ending);
    if (size < 0 || size >= PATH_MAX)
        return trouble("the name of the folder is too long");
    return 1;
}

static int write_file(const char *folder, const char *name, const char *ending,
                      const uint8_t *bytes, size_t length)
{
    char path[PATH_MAX];
    if (!find_path(folder, name, ending, path))
        return 0;
    FILE *file = fopen(path, "wb");
    if (file == NULL)
        return trouble("%s: %s", path, strerror(errno));
    size_t written = fwrite(bytes, 1, length, file);
    if (fclose(file) != 0 || written != length)
        return trouble("%s is not written", path);
    return 1;
}

/* Removes a file, if it is there. */
static int remove_file(const char *folder, const char *name, const char *ending)
{
    char path[PATH_MAX];
    if (!find_path(folder, name, ending, path))
        return 0;
    if (remove(path) != 0 && errno != ENOENT)
        return trouble("%s: %s", path, strerror(errno));
    return 1;
}

/* Writes the page, or removes that of an earlier run if there is none. */
static int keep_page(const char *folder, const char *name, const struct page *page)
{
    return page->length == 0
               ? remove_file(folder, name, ".excerpt.page")
               : write_file(folder, name, ".excerpt.page", page->bytes, page->length);
}

static int keep_excerpt(const char *folder, const char *name, const struct verdict *verdict)
{
    const struct log *excerpt = &verdict->excerpt;
    return write_file(folder, name, ".excerpt.log", excerpt->bytes, excerpt->length) &&
           keep_page(folder, name, &verdict->page);
}

/* Removes the excerpt of an earlier run, and its page. */
static int remove_excerpt(const char *folder, const char *name)
{
    return remove_file(folder, name, ".excerpt.log") &&
           remove_file(folder, name, ".excerpt.page");
}

int keep(const char *folder, const char *name, const struct log *log,
         const struct verdict *verdict)
{
    const struct sheet *sheet = &verdict->sheet;
    return write_file(folder, name, ".log", log->bytes, log->length) &&
           write_file(folder, name, ".sheet", sheet->bytes, sheet->length) &&
           (verdict->excerpt.length == 0 ? remove_excerpt(folder, name)
                                         : keep_excerpt(folder, name, verdict));
}
