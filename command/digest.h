/* A file of any length, formatted in memory. */
#ifndef DIGEST_H
#define DIGEST_H

#include "parts.h"

/* The digest of one file. The room is kept from file to file. */
struct digest {
    struct buffer text;
    struct refusal refusal;
};

/* Formats what the window shows from now on. Answers false, with errno, if the file cannot be read to its end. */
bool make_digest(struct digest *digest, const struct options *options, struct window *window);
/* Formats notes in memory. Answers false if they are refused. */
bool digest_bytes(struct digest *digest, const struct options *options, struct bytes notes);

/* The digest of a file by its name. Says why, if there is none. ENDED is the panel's alone: it may be an old one. */
enum outcome { MADE, NOT_READ, REFUSED, ENDED };
enum outcome digest_file(const struct options *options, const char *name, struct window *window, struct digest *digest);

#endif
