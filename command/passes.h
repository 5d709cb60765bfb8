/* A file of any length in two passes: it is measured whole, then gone through again for what is to be written of it. So nothing is written of
 * a file that is refused, and memory does not grow with a regular file. */
#ifndef PASSES_H
#define PASSES_H

#include "parts.h"

/* All zero at first; the room is kept from file to file. */
struct passes {
    const struct options *options;
    const char *label;
    bool mail; /* it is written as mail of format=flowed */
    struct window window;
    struct buffer kept;  /* the file, if it cannot be read again */
    struct buffer known; /* of each part */
    struct buffer room;  /* for the longest digest of a part */
};

/* The first pass. Says why, if the file is not read or refused. */
bool measure_file(struct passes *passes, const struct options *options, const char *name);

/* The second: each part is handed over with the bytes of its digest, of which there is room in passes->room. */
enum taken { GO_ON, ENOUGH, BROKEN };
typedef enum taken take_part(void *state, struct passes *passes, const struct part *part, size_t length);
/* Answers false if a part was broken, or the file is another than in the first pass, which is said. Says what was mended in it. */
bool take_parts(struct passes *passes, take_part *take, void *state);
/* A part that is not as it was measured: so the file was changed. */
enum taken not_as_before(const struct passes *passes);
/* Writes the part into passes->room, with its index. Says why, if it fails. */
bool index_measured(struct passes *passes, const struct part *part, size_t length, struct index *index);

/* After each file that was measured; and after all of them. */
void close_file(struct passes *passes);
void free_passes(struct passes *passes);

#endif
