/* What comes in. */
#define _POSIX_C_SOURCE 200809L
#include "streams.h"

#include "progress.h"

#include <errno.h>
#include <fcntl.h>
#include <stdlib.h>
#include <string.h>
#include <sys/stat.h>
#include <unistd.h>

const char *label_of(const char *name) { return strcmp(name, "-") == 0 ? "standard input" : name; }

/* A regular file may be read again from where it stands now: standard input may have been read before. */
static void look_at_file(struct window *window) {
    struct stat about;
    if (fstat(window->file, &about) != 0 || !S_ISREG(about.st_mode))
        return;
    window->start = lseek(window->file, 0, SEEK_CUR);
    if (window->start >= 0 && about.st_size > window->start)
        window->size = (size_t)(about.st_size - window->start);
}

bool open_window(struct window *window, const char *name) {
    struct buffer *kept = window->kept;
    struct mender mender = window->mender;
    bool mends = window->mends;
    uint8_t *bytes = window->bytes;
    size_t room = window->room;
    memset(window, 0, sizeof *window);
    window->bytes = bytes;
    window->room = room;
    window->kept = kept;
    window->mends = mends;
    window->mender = mender;
    mend_anew(&window->mender);
    window->opened = strcmp(name, "-") != 0;
    window->file = window->opened ? open(name, O_RDONLY | O_CLOEXEC) : STDIN_FILENO;
    if (window->file >= 0)
        look_at_file(window);
    return window->file >= 0;
}

/* So many bytes more, from the file or, the second time, from what was kept. */
static ssize_t get(struct window *window, uint8_t *to, size_t most) {
    if (window->again && most > window->all - window->read)
        most = window->all - window->read;
    if (!window->again || window->kept == NULL)
        return most == 0 ? 0 : read(window->file, to, most);
    if (most > 0)
        memcpy(to, window->kept->bytes + window->read, most);
    return (ssize_t)most;
}

/* The file's next bytes, at most so many; none at its end. A read may give less than asked for, from a pipe say. */
static bool read_next(struct window *window, uint8_t *to, size_t most, size_t *length) {
    ssize_t got;
    do
        got = get(window, to, most);
    while (got < 0 && errno == EINTR);
    if (got < 0)
        return false;
    *length = (size_t)got;
    if (window->kept != NULL && !window->again && !buffer_add(window->kept, to, *length))
        return false;
    window->read += *length;
    return true;
}

/* Mended bytes go out as they are asked for, whole lines of the file come in. */
static bool read_mended(struct window *window, uint8_t *to, size_t most, size_t *length) {
    static uint8_t raw[RUDIGNALS_MOST_NOTES];
    size_t got;
    while ((*length = take_mended(&window->mender, to, most)) == 0 && !window->drained) {
        if (!read_next(window, raw, sizeof raw, &got))
            return false;
        window->drained = got == 0;
        if (!mend_next(&window->mender, raw, got, window->drained))
            return false;
    }
    return true;
}

static bool widen(struct window *window, size_t wanted) {
    uint8_t *wider = wanted <= window->room ? window->bytes : realloc(window->bytes, wanted);
    if (wider == NULL)
        return false;
    window->bytes = wider;
    window->room = wanted <= window->room ? window->room : wanted;
    return true;
}

bool fill_window(struct window *window, size_t wanted) {
    size_t got;
    show_progress(window->read, window->size);
    if (!widen(window, wanted))
        return false;
    while (!window->ended && window->length < wanted) {
        uint8_t *to = window->bytes + window->length;
        size_t most = wanted - window->length;
        if (!(window->mends ? read_mended(window, to, most, &got) : read_next(window, to, most, &got)))
            return false;
        window->ended = got == 0;
        window->length += got;
    }
    return true;
}

void drop_bytes(struct window *window, size_t count) {
    window->length -= count;
    if (count > 0)
        memmove(window->bytes, window->bytes + count, window->length);
}

void close_window(struct window *window) {
    if (window->opened)
        close(window->file);
}

void free_window(struct window *window) {
    free(window->bytes);
    free_mender(&window->mender);
    *window = (struct window){0};
}

/* A short file is kept too: so nobody can change it between the two. */
enum { SHORT_FILE = 1 << 20 };

void keep_if_needed(struct window *window, struct buffer *kept) {
    kept->length = 0;
    window->kept = window->size > SHORT_FILE ? NULL : kept;
}

bool rewind_window(struct window *window) {
    if (window->kept == NULL && lseek(window->file, window->start, SEEK_SET) != window->start)
        return false;
    window->again = true;
    window->all = window->read;
    window->read = window->length = 0;
    window->ended = window->drained = false;
    mend_anew(&window->mender);
    return true;
}

bool read_whole(const char *name, struct buffer *buffer) {
    static struct window window;
    bool well;
    int reason;
    window.kept = buffer;
    if (!open_window(&window, name))
        return false;
    do {
        well = fill_window(&window, MOST_PART);
        window.length = 0;
    } while (well && !window.ended);
    reason = errno; /* closing may put another in its place */
    close_window(&window);
    errno = reason;
    return well;
}
