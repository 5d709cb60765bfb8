/* rudignals restore: the old notes from a mended copy and its list.
 *
 * The copy is taken in parts that end with a line, as it was made; each part gets the entries whose places lie in it. All is in memory
 * before a byte is written, and nothing is written if an entry does not belong to the copy. */
#include "lines.h"
#include "listed.h"
#include "numbers.h"
#include "output.h"
#include "subcommand.h"

#include <errno.h>
#include <string.h>

/* The list, and its next entry, if there is one. */
struct entries {
    const char *name;
    struct lines lines;
    uint64_t place;
    uint8_t byte;
    bool there;
};

/* `PLACE BYTE', a line feed after it: what salvage writes. */
static bool read_entry(struct entries *list) {
    const char *line = (const char *)list->lines.line, *blank = memchr(line, ' ', list->lines.length);
    return blank != NULL && list->lines.fed && list->lines.length == (size_t)(blank - line) + 4 && read_number(line, (size_t)(blank - line), &list->place) &&
           read_byte(blank + 1, &list->byte);
}

static bool say_stray(const struct entries *list, unsigned long line) {
    say("%s: line %lu does not belong to this copy", list->name, line);
    return false;
}

static bool next_entry(struct entries *list) {
    list->there = next_line(&list->lines);
    return !list->there || read_entry(list) || say_stray(list, list->lines.number);
}

/* The entries of a part of the copy that begins at an old place: an entry stands as many bytes further on as entries are before it. */
static bool take_entries(struct entries *list, uint64_t from, size_t length, uint32_t *places, uint8_t *bytes, size_t *count) {
    *count = 0;
    while (list->there && *count < RUDIGNALS_MOST_NOTES && list->place >= from && list->place - from < length && list->place - from + *count < length) {
        places[*count] = (uint32_t)(list->place - from);
        bytes[(*count)++] = list->byte;
        if (!next_entry(list))
            return false;
    }
    return true;
}

static bool restore_part(struct buffer *notes, struct entries *list, uint64_t from, const uint8_t *part, size_t length) {
    static uint32_t places[RUDIGNALS_MOST_NOTES];
    static uint8_t bytes[RUDIGNALS_MOST_NOTES];
    unsigned long first = list->lines.number;
    uint64_t answer;
    size_t count;
    if (!take_entries(list, from, length, places, bytes, &count))
        return false;
    if (!buffer_room(notes, length + 1)) {
        say("no memory for the notes");
        return false;
    }
    answer = rudignals_restore(part, length, places, count, bytes, count, notes->bytes + notes->length, notes->room - notes->length);
    if (rudignals_code_of(answer) == RUDIGNALS_LIST)
        return say_stray(list, first + rudignals_number_of(answer));
    notes->length += rudignals_number_of(answer);
    return true;
}

/* A line of a mended copy has at most so many bytes. */
enum { MOST_LINE = 2 * MOST_PART };

static bool restore_window(const char *label, struct window *window, struct entries *list, struct buffer *notes) {
    size_t length;
    do {
        if (!fill_window(window, MOST_LINE)) {
            say_failure(label, errno);
            return false;
        }
        length = lines_within(window, MOST_LINE);
        if (length == 0 && window->length > 0) {
            say("%s: a line has more than %lu bytes; no mended copy has", label, (unsigned long)MOST_LINE);
            return false;
        }
        if (!restore_part(notes, list, notes->length, window->bytes, length))
            return false;
        drop_bytes(window, length);
    } while (!window->ended || window->length > 0);
    return !list->there || say_stray(list, list->lines.number);
}

static bool restore_file(const char *name, struct entries *list, struct buffer *notes) {
    static struct window window;
    bool whole;
    if (!next_entry(list))
        return false;
    if (!open_window(&window, name)) {
        say_failure(label_of(name), errno);
        return false;
    }
    whole = restore_window(label_of(name), &window, list, notes);
    close_window(&window);
    return whole;
}

static int run_restore(const struct options *options) {
    struct buffer notes = {0}, list = {0};
    struct entries entries = {0};
    struct files files;
    bool whole;
    if (!find_files(&files, options))
        return wrong_call();
    whole = read_whole(files.list, &list);
    if (!whole)
        say_failure(files.list, errno);
    entries.name = files.list;
    entries.lines = read_lines(list.bytes, list.length);
    whole = whole && restore_file(files.file, &entries, &notes) && write_out(notes.bytes, notes.length);
    buffer_free(&notes);
    buffer_free(&list);
    return whole ? WELL : FAILED;
}

static const int TAKES[] = {'o', 0};

const struct subcommand restore_subcommand = {
    .name = "restore",
    .does = "bring the old notes back from a mended copy and its list",
    .arguments = "LIST [FILE]",
    .about = "Brings the old notes back from the mended copy FILE, or standard input (also\n"
             "-), and LIST, as rudignals salvage wrote them. The notes go to standard output.\n"
             "Nothing is written if a line of LIST does not belong to the copy: that line is\n"
             "named, counted from 1.\n",
    .takes = TAKES,
    .limits = "Limits: a file may have any length, a line at most 131072 bytes, which is more\n"
              "than a mended copy has.\n",
    .statuses = "0 the notes were written; " STATUSES,
    .run = run_restore,
};
