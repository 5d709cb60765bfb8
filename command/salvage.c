/* rudignals salvage: notes in ISO 8859-1 made readable, with a list of what was changed.
 *
 * Lines are mended one by one (RULES 14), so a file of any length is mended in parts that end with a line. All is in memory before a byte is
 * written. The list goes out first: a copy without its list could not be undone. Where the copy does not arrive the list is taken back. */
#define _POSIX_C_SOURCE 200809L
#include "listed.h"
#include "output.h"
#include "subcommand.h"
#include "whole.h"

#include <errno.h>
#include <unistd.h>

/* The changes of a part whose first byte has a place in the file, as lines. */
static bool add_changes(struct buffer *list, unsigned long place, const uint32_t *places, const uint8_t *bytes, size_t changes) {
    size_t i;
    for (i = 0; i < changes; i++)
        if (!buffer_print(list, "%lu %02X\n", place + places[i], (unsigned)bytes[i]))
            return false;
    return true;
}

/* Room for the longest copy and list of a part is always there, so nothing but memory can be missing. */
static bool mend_part(struct buffer *copy, struct buffer *list, unsigned long place, const uint8_t *part, size_t length, size_t *nameless) {
    static uint32_t places[RUDIGNALS_MOST_NOTES];
    static uint8_t bytes[RUDIGNALS_MOST_NOTES];
    uint64_t answer;
    if (!buffer_room(copy, 2 * length + 1))
        return false;
    answer = rudignals_mend(part, length, copy->bytes + copy->length, copy->room - copy->length, places, RUDIGNALS_MOST_NOTES, bytes, RUDIGNALS_MOST_NOTES);
    if (rudignals_code_of(answer) != RUDIGNALS_DONE)
        return false;
    copy->length += rudignals_number_of(answer);
    *nameless += count_nameless(bytes, rudignals_number_of(answer) - length);
    return add_changes(list, place, places, bytes, rudignals_number_of(answer) - length);
}

static bool mend_window(const char *label, struct window *window, struct buffer *copy, struct buffer *list, size_t *nameless) {
    unsigned long place = 0;
    size_t length;
    do {
        if (!fill_window(window, 2 * MOST_PART)) {
            say_failure(label, errno);
            return false;
        }
        length = lines_within(window, MOST_PART);
        if (length == 0 && window->length > 0) {
            say("%s: the line at byte %lu has more than %u bytes", label, place, (unsigned)MOST_PART);
            return false;
        }
        if (!mend_part(copy, list, place, window->bytes, length, nameless)) {
            say("%s: no memory for the mended copy", label);
            return false;
        }
        place += (unsigned long)length;
        drop_bytes(window, length);
    } while (!window->ended || window->length > 0);
    return true;
}

static bool mend_file(const char *name, struct buffer *copy, struct buffer *list, size_t *nameless) {
    static struct window window;
    bool whole = open_window(&window, name);
    if (!whole) {
        say_failure(label_of(name), errno);
        return false;
    }
    whole = mend_window(label_of(name), &window, copy, list, nameless);
    close_window(&window);
    return whole;
}

/* A list that is there already belongs to another copy, and stays; or it is the notes, and LIST was left out. */
static bool write_both(const char *name, const struct buffer *list, const struct buffer *copy) {
    if (!write_new(name, list->bytes, list->length)) {
        if (errno == EEXIST)
            say("%s: File exists; LIST must be a new file, and comes before FILE", name);
        else
            say_failure(name, errno);
        return false;
    }
    if (write_out(copy->bytes, copy->length) && end_output())
        return true;
    if (unlink(name) != 0)
        say_failure(name, errno);
    return false;
}

static int run_salvage(const struct options *options) {
    struct buffer copy = {0}, list = {0};
    struct files files;
    size_t nameless = 0;
    bool whole;
    if (!find_files(&files, options))
        return wrong_call();
    whole = mend_file(files.file, &copy, &list, &nameless) && write_both(files.list, &list, &copy);
    if (whole)
        say_nameless(label_of(files.file), nameless);
    buffer_free(&copy);
    buffer_free(&list);
    return whole ? WELL : FAILED;
}

static const int TAKES[] = {'o', 0};

const struct subcommand salvage_subcommand = {
    .name = "salvage",
    .does = "mend notes in ISO 8859-1, with a list of what was changed",
    .arguments = "LIST [FILE]",
    .about = "Mends the lines of FILE, or of standard input (also -), that are not UTF-8:\n"
             "each byte from 80 to FF becomes the same character of ISO 8859-1 in UTF-8.\n"
             "Every other line is left as found. The mended copy goes to standard output,\n"
             "what was changed to the new file LIST: a line for each byte, its place in\n"
             "decimal, from 0, and the byte in hex. rudignals restore brings the old notes\n"
             "back.\n"
             "\n"
             "ISO 8859-1 has no letter for the bytes 80 to 9F, which become controls that are\n"
             "not seen. How many there were is said: such notes may be windows-1252.\n",
    .takes = TAKES,
    .limits = "Both are written, or none: where the copy does not arrive LIST is taken back.\n"
              "\n"
              "Limits: a file may have any length, a line at most 65536 bytes. LIST must not\n"
              "be there yet.\n",
    .statuses = "0 both were written; " STATUSES,
    .run = run_salvage,
};
