/* What goes out. */
#define _POSIX_C_SOURCE 200809L
#include "output.h"

#include "progress.h"
#include "say.h"
#include "visible.h"
#include "whole.h"

#include <errno.h>
#include <fcntl.h>
#include <string.h>
#include <unistd.h>

enum { ENOUGH = 1 << 16 };

static const char *file_name = NULL; /* null: standard output */
static struct whole whole;
static struct buffer waiting;
static bool touched = false, begun = false, failed = false, closed_from_start = false;

/* Reading from the one, or writing to the other, fails as it would if the number were free. */
void hold_streams(void) {
    static const int MODE[] = {O_WRONLY, O_RDONLY, O_WRONLY};
    int stream;
    for (stream = STDIN_FILENO; stream <= STDERR_FILENO; stream++) {
        if (fcntl(stream, F_GETFD) >= 0)
            continue;
        closed_from_start = closed_from_start || stream == STDOUT_FILENO;
        if (open("/dev/null", MODE[stream]) != stream)
            return;
    }
}

void set_output(const char *name) { file_name = name != NULL && strcmp(name, "-") != 0 ? name : NULL; }

bool output_is_terminal(void) { return file_name == NULL && isatty(STDOUT_FILENO); }

bool output_failed(void) { return failed; }

bool output_begun(void) { return touched; }

static bool written(bool well) {
    if (!well && !failed)
        say_failure(file_name == NULL ? "standard output" : file_name, errno);
    failed = failed || !well;
    return well;
}

static bool put(const void *bytes, size_t length) {
    if (file_name == NULL)
        return write_all(STDOUT_FILENO, bytes, length);
    if (!begun && !begin_whole(&whole, file_name))
        return false;
    begun = true;
    return add_whole(&whole, bytes, length);
}

static bool empty_buffer(void) {
    bool well = !failed;
    if (well && waiting.length > 0) {
        if (output_is_terminal())
            end_progress();
        well = written(put(waiting.bytes, waiting.length));
    }
    waiting.length = 0;
    return well;
}

/* What is long goes out by itself. */
bool draw_out(const void *bytes, size_t length) {
    touched = true;
    if (failed || (waiting.length + length > ENOUGH && !empty_buffer()))
        return false;
    if (length > ENOUGH)
        return written(put(bytes, length));
    return written(buffer_add(&waiting, bytes, length));
}

bool write_out(const void *bytes, size_t length) {
    struct buffer shown = {0};
    bool well;
    if (!output_is_terminal())
        return draw_out(bytes, length);
    well = written(add_visible(&shown, bytes, length)) && draw_out(shown.bytes, shown.length);
    buffer_free(&shown);
    return well;
}

bool print_out(const char *format, ...) {
    struct buffer text = {0};
    va_list values;
    bool well;
    va_start(values, format);
    well = written(buffer_fill(&text, format, values)) && write_out(text.bytes, text.length);
    va_end(values);
    buffer_free(&text);
    return well;
}

bool flush_out(void) { return file_name == NULL ? empty_buffer() : !failed; }

/* Nothing at all is written to a file too: it is empty then. */
static bool end_file(bool wanted) {
    bool well = !wanted || (empty_buffer() && written(begun || put("", 0)));
    if (begun && !end_whole(&whole, wanted && well) && wanted && well)
        well = written(false);
    return well;
}

/* Some file systems tell only on closing that a write failed. */
static bool end_stream(void) {
    bool well = empty_buffer();
    if (well && closed_from_start)
        errno = EBADF;
    return well && written(!closed_from_start && close(STDOUT_FILENO) == 0);
}

static bool end(bool wanted) {
    static bool ended = false;
    bool well = ended || (file_name == NULL ? end_stream() : end_file(wanted));
    ended = true;
    clear_progress();
    buffer_free(&waiting);
    return well && !failed;
}

bool end_output(void) { return end(true); }

bool close_output(bool wanted) { return end(wanted); }
