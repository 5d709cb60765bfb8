/* What comes in: a file from its front, and again. */
#ifndef STREAMS_H
#define STREAMS_H

#include "buffer.h"
#include "mend.h"

#include <sys/types.h>

/* How a file is called in what is said of it: `-' is standard input. */
const char *label_of(const char *name);

/* A file's bytes from some place on. All zero at first; the room is kept from file to file. */
struct window {
    int file;
    bool opened; /* by us: standard input is not, and stays open */
    uint8_t *bytes;
    size_t length, room;
    bool ended;          /* no byte follows */
    struct buffer *kept; /* what was read so far is kept there, if it is not null */
    size_t read, size;   /* so many bytes were read, of so many; 0: nobody knows */
    off_t start;         /* where reading began */
    bool again;          /* it is read a second time, */
    size_t all;          /* as far as the first time */
    bool mends;          /* what is shown is mended, by this: what is kept is not */
    bool drained;        /* the file has ended; mended bytes may be left */
    struct mender mender;
};

/* Opens a file, `-' being standard input; `kept` and `mends` are the caller's to set before. These answer false, with errno, if that fails. */
bool open_window(struct window *window, const char *name);
/* So many bytes, or all up to the file's end. With twice as many as a part has, a blank line that begins within the part is seen whole, unless it
 * is longer than any part. */
bool fill_window(struct window *window, size_t wanted);
void drop_bytes(struct window *window, size_t count);
void close_window(struct window *window);
void free_window(struct window *window);

/* A file that was read to its end is read again from its front: a regular one from the disk, so that memory does not grow with it, any other
 * from what was kept, which keep_if_needed provides for. */
void keep_if_needed(struct window *window, struct buffer *kept);
bool rewind_window(struct window *window);

/* All of a file after the buffer. */
bool read_whole(const char *name, struct buffer *buffer);

#endif
