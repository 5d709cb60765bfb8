/* rudignals unflow: mail of format=flowed read, a paragraph a line.
 *
 * A line that does not end in a space ends its paragraph, so a file of any length is read in parts that end with such a line. All is in memory
 * before a byte is written. */
#include "output.h"
#include "streams.h"
#include "subcommand.h"

#include <errno.h>

/* How long the first part of the bytes is: up to the last line within MOST_PART that does not end in a space. 0 if there is none. */
static size_t fixed_within(const struct window *window) {
    size_t most = window->length < MOST_PART ? window->length : MOST_PART, end;
    if (window->ended && window->length <= MOST_PART)
        return window->length;
    for (end = most; end > 0; end--) {
        size_t last = end - 1;
        if (window->bytes[last] != '\n')
            continue;
        if (last > 0 && window->bytes[last - 1] == '\r')
            last--;
        if (last == 0 || window->bytes[last - 1] != ' ')
            return end;
    }
    return 0;
}

static bool read_mail(const char *label, struct window *window, struct buffer *read) {
    size_t length;
    do {
        if (!fill_window(window, 2 * MOST_PART)) {
            say_failure(label, errno);
            return false;
        }
        length = fixed_within(window);
        if (length == 0 && window->length > 0) {
            say("%s: a paragraph has more than %u bytes", label, (unsigned)MOST_PART);
            return false;
        }
        if (!buffer_room(read, RUDIGNALS_MOST_UNFLOWED(length))) {
            say("%s: no memory for what was read", label);
            return false;
        }
        read->length += rudignals_number_of(rudignals_unflow(window->bytes, length, read->bytes + read->length, read->room - read->length));
        drop_bytes(window, length);
    } while (!window->ended || window->length > 0);
    return true;
}

static int run_unflow(const struct options *options) {
    static struct window window;
    struct buffer read = {0};
    const char *name = options->count == 0 ? "-" : options->files[0];
    bool whole;
    if (options->count > 1) {
        say("one file at a time");
        return wrong_call();
    }
    if (!open_window(&window, name)) {
        say_failure(label_of(name), errno);
        return FAILED;
    }
    whole = read_mail(label_of(name), &window, &read);
    close_window(&window);
    whole = whole && write_out(read.bytes, read.length);
    buffer_free(&read);
    return whole ? WELL : FAILED;
}

static const int TAKES[] = {'o', 0};

const struct subcommand unflow_subcommand = {
    .name = "unflow",
    .does = "read mail of format=flowed, a paragraph a line",
    .arguments = "[FILE]",
    .about = "Reads mail of format=flowed (RFC 3676, DelSp=no) from FILE, or standard input\n"
             "(also -), and writes each of its paragraphs as one line, ended by CR LF, with\n"
             "its quote marks. FILE is the body alone, as it was sent.\n",
    .takes = TAKES,
    .limits = "Limits: a file may have any length, a paragraph at most 65536 bytes.\n",
    .statuses = "0 all was read; " STATUSES,
    .run = run_unflow,
};
