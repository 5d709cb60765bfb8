/* A file written whole and in its place. */
#ifndef WHOLE_H
#define WHOLE_H

#include "buffer.h"

/* Puts the bytes into the file of that name: who reads it sees what it had or all of this, and so does who looks after the power failed. A link
 * stays, and the file that it names is written. A file that was there keeps its mode; a new one's is 666 less the umask. What is no regular
 * file, a device or a pipe, is written to as it is. Answers false, with errno, if that fails; then the file is as it was, and nothing is left
 * after. */
bool write_whole(const char *name, const void *bytes, size_t length);
/* The same for a file that is not there yet; EEXIST if one is. */
bool write_new(const char *name, const void *bytes, size_t length);

/* The same for bytes that come one after the other. These answer false, with errno; what was begun is ended all the same. One file is written
 * so at a time. */
struct whole {
    int file;
    struct buffer path;   /* where the file stands in the end */
    struct buffer beside; /* where it is written; empty: it is no regular file, and written where it stands */
};
bool begin_whole(struct whole *whole, const char *name);
bool add_whole(struct whole *whole, const void *bytes, size_t length);
/* Puts it in its place, or leaves all as it was. */
bool end_whole(struct whole *whole, bool well);

/* Writes all the bytes to an open file, however many the system takes at a time. */
bool write_all(int file, const void *bytes, size_t length);

#endif
