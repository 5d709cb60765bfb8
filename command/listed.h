/* What salvage.c and restore.c share: a file and its list of changes. */
#ifndef LISTED_H
#define LISTED_H

#include "options.h"
#include "streams.h"

/* LIST and FILE off the command line, FILE being - if it is missing. Says what is wrong, and answers false. */
struct files {
    const char *list;
    const char *file;
};
bool find_files(struct files *files, const struct options *options);

/* How long the first part of a window is: up to its last line feed within so many bytes, or all of it at the file's end. 0 if its first
 * line is longer. */
size_t lines_within(const struct window *window, size_t most);

#endif
