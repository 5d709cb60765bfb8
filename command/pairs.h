/* The pairs that an audit is asked of: files found in two folders, or named in a list. */
#ifndef PAIRS_H
#define PAIRS_H

#include <stdbool.h>
#include <stddef.h>

/* The names, null where there is none. `why` is a reason in words for which the pair cannot be judged, known before a file is read. */
struct pair {
    char *notes, *digest;
    char *why;
    char *key; /* by which pairs are put in order */
};

struct pairs {
    struct pair *rows;
    size_t length, room;
};

/* These answer false, with errno, if there is no memory. Files of two folders belong together if their paths below them are the same but
 * for the last suffix. A folder that cannot be read is a pair that cannot be judged. */
bool add_pair(struct pairs *pairs, const char *notes, const char *digest, const char *why);
bool add_folders(struct pairs *pairs, const char *notes, const char *digests);
/* A list: a pair a line, a tab between the names. A line without one is a pair that cannot be judged. */
bool add_list(struct pairs *pairs, const char *bytes, size_t length);
/* In the order of the names' bytes. */
void sort_pairs(struct pairs *pairs);
void free_pairs(struct pairs *pairs);

#endif
