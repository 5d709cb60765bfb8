/* rudignals index: the index of a file's digest, a line for each record; or the notes under one line of the digest. */
#include "json.h"
#include "output.h"
#include "passes.h"
#include "subcommand.h"

#include <inttypes.h>

/* What is asked, and what the parts before had. */
struct search {
    bool one, json;
    uint64_t line; /* from 0, as the library counts */
    bool found;
    uint64_t lines_before;
    struct index index;
};

static bool show_record(const struct search *search, const struct part *part, const struct rudignals_record *record) {
    static const char TEXT_LINE[] = "%" PRIu64 " %" PRIu64 " %" PRIu64 " %" PRIu64 "\n";
    static const char JSON_LINE[] = "{\"place\":%" PRIu64 ",\"length\":%" PRIu64 ",\"first\":%" PRIu64 ",\"count\":%" PRIu64 "}\n";
    uint64_t place = part->bytes_before + record->place, first = search->lines_before + record->first + 1;
    return search->json ? print_out(JSON_LINE, place, record->length, first, record->count) : print_out(TEXT_LINE, place, record->length, first, record->count);
}

/* The notes under the line that was asked for, of which the part has such a place. */
static bool show_notes(const struct search *search, const struct part *part, const uint64_t found[2]) {
    const uint8_t *notes = part->bytes + found[0];
    struct buffer text = {0};
    bool well;
    if (!search->json)
        return write_out(notes, (size_t)found[1]);
    well = buffer_print(&text, "{\"line\":%" PRIu64 ",\"place\":%" PRIu64 ",\"length\":%" PRIu64 ",", search->line + 1, part->bytes_before + found[0], found[1]) &&
           add_json_text(&text, "notes", notes, (size_t)found[1]) && buffer_print(&text, "}\n");
    if (!well)
        say("no memory for the notes");
    well = well && write_out(text.bytes, text.length);
    buffer_free(&text);
    return well;
}

/* The records of a part, moved on by what is before it; or, of the part that holds the line, the notes under it. The parts join by the
 * theorem `the-indexes-join'. */
static enum taken show_part(struct search *search, const struct part *part) {
    const struct rudignals_record *records = search->index.records;
    uint64_t found[2], filled = search->index.filled, i;
    if (search->one) {
        search->found = rudignals_lookup(records, filled, filled, part->bytes, part->length, search->line - search->lines_before, found) == 1;
        if (search->found)
            return show_notes(search, part, found) ? ENOUGH : BROKEN;
    }
    for (i = 0; !search->one && i < filled; i++)
        if (!show_record(search, part, &records[i]))
            return BROKEN;
    search->lines_before += lines_of_index(&search->index);
    return GO_ON;
}

static enum taken take_index(void *state, struct passes *passes, const struct part *part, size_t length) {
    struct search *search = state;
    return index_measured(passes, part, length, &search->index) ? show_part(search, part) : BROKEN;
}

static bool index_file(struct search *search, const struct options *options, const char *name) {
    static struct passes passes;
    bool whole = measure_file(&passes, options, name);
    if (whole) {
        whole = take_parts(&passes, take_index, search);
        free_index(&search->index);
        close_file(&passes);
    }
    free_passes(&passes);
    if (whole && search->one && !search->found) {
        say_no_line(label_of(name), search->line + 1, search->lines_before);
        return false;
    }
    return whole;
}

static int run_index(const struct options *options) {
    struct search search = {.json = options->value[JSON] != NULL, .one = options->value[LINE] != NULL};
    if (!options_accepted(options))
        return WRONG_CALL;
    if (search.one && !read_line_number(options->value[LINE], &search.line))
        return wrong_call();
    if (options->count > 1) {
        say("one file at a time");
        return wrong_call();
    }
    search.line -= search.one;
    return index_file(&search, options, options->count == 0 ? "-" : options->files[0]) ? WELL : FAILED;
}

static const int TAKES[] = {LINE, JSON, 'o', FORMATTING, 0};

const struct subcommand index_subcommand = {
    .name = "index",
    .does = "show which notes each line of their digest comes from",
    .arguments = "[FILE]",
    .about = "Formats FILE, or standard input (also -), as `format' does, and shows in place\n"
             "of the digest its index: for each paragraph, plain line and blank line its\n"
             "place and length in the file in bytes, its first output line and its count of\n"
             "output lines. Lines are counted from 1, bytes from 0.\n",
    .takes = TAKES,
    .limits = "With --json each object has place, length, first and count; with --line too the\n"
              "line, its place and length and the notes, or, where they are not UTF-8,\n"
              "notes-hex. A file is shown whole or refused whole.\n"
              "\n"
              LIMIT,
    .statuses = "0 all was shown; 1 something was refused, not read or not\n"
                "written, or there is no such line; 2 a wrong call",
    .run = run_index,
};
