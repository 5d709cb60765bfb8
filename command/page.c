/* rudignals page: formats a file and writes, in place of the digest, a page on which a person can point at its lines.
 *
 * All that the page says is asked of the library: the pieces and their lines are records of the index, the reasons those of
 * rudignals_explain. */
#define _POSIX_C_SOURCE 200809L
#include "page.h"

#include "cut.h"
#include "damage.h"
#include "drawn.h"
#include "lines.h"
#include "nextmail.h"
#include "output.h"
#include "subcommand.h"

#include <stdlib.h>
#include <string.h>

/* ---- the pieces and lines of the digest */

/* The piece of a record, whose part begins at `at` in the notes, after the last one. */
static bool find_piece(const struct page *page, const struct rudignals_record *record, size_t at, size_t length, struct piece *last) {
    uint64_t part[2];
    if (rudignals_lookup(record, 1, 1, page->notes + at, length, record->first, part) == 0)
        return false;
    *last = (struct piece){.place = at + (size_t)part[0],
                           .length = (size_t)part[1],
                           .note = last->note + feeds(page->notes + last->place, last->length),
                           .first = last->first + last->count,
                           .count = (size_t)record->count};
    return true;
}

/* As far as it is shown. */
static void add_piece(struct page *page, struct piece piece) {
    if (piece.first + piece.count <= page->above)
        return;
    piece.hidden = piece.first < page->above ? page->above - piece.first : 0;
    piece.first += piece.hidden;
    piece.count -= piece.hidden;
    page->pieces[page->pieces_len++] = piece;
}

/* A part of the notes: its digest is written where it stands already, for the index beside it. */
static bool add_pieces(struct page *page, const struct part *part, struct index *index, size_t *digest_at, struct piece *last) {
    const struct buffer *text = &page->digest->text;
    uint64_t answer = index_part(page->options, part, text->bytes + *digest_at, text->length - *digest_at, index), i;
    bool well = rudignals_code_of(answer) == RUDIGNALS_DONE;
    for (i = 0; well && i < index->filled; i++) {
        well = find_piece(page, &index->records[i], part->bytes_before, part->length, last);
        if (well)
            add_piece(page, *last);
    }
    *digest_at += rudignals_number_of(answer);
    return well;
}

/* The parts are those that were formatted: the index of one joins on to the next (the theorem `the-indexes-join`). */
static bool find_pieces(struct page *page) {
    struct part part = {0};
    struct index index = {0};
    struct piece last = {.note = 1};
    size_t digest_at = 0;
    bool well = true;
    while (well && next_part_of(&own_work, block_of(page->options), (struct bytes){page->notes, page->notes_len}, MOST_PART, &part) == PART)
        well = add_pieces(page, &part, &index, &digest_at, &last);
    free_index(&index);
    return well;
}

static void find_lines(struct page *page) {
    const uint8_t *bytes = page->digest->text.bytes, *feed;
    uint64_t tab = tab_of(page->options);
    size_t at = page->shown_from, i;
    for (i = 0; i < page->lines_len; i++) {
        struct line *line = &page->lines[i];
        feed = memchr(bytes + at, '\n', page->digest->text.length - at);
        line->at = at;
        line->length = (size_t)(feed - (bytes + at));
        line->look = look_at(bytes + at, line->length, tab);
        at += line->length + 1;
    }
}

/* ---- why the lines end */

/* A call looks at all the notes that it is given. They are cut at blank lines, and each stretch between two is asked about by itself: so
 * the calls come to the notes' length times the lines of a stretch. A stretch for which that is over some seconds is not asked about, and
 * the page says so. */
enum { MOST_ASKED = 1 << 28 };

static void explain_stretch(struct page *page, const struct piece *from, const struct piece *to) {
    size_t length = to->place + to->length - from->place, count = to->first + to->count - from->first, i;
    for (i = 0; i < count && length <= MOST_ASKED / count; i++) {
        struct line *line = &page->lines[from->first - page->above + i];
        uint64_t answer = lent_explain(&own_work, block_of(page->options), (struct bytes){page->notes + from->place, length}, from->hidden + i, line->reason);
        line->asked = rudignals_code_of(answer) == RUDIGNALS_DONE;
    }
}

static void explain_lines(struct page *page) {
    const struct piece *end = page->pieces + page->pieces_len, *from, *to;
    bool begun = page->above > 0 && asks_for_mail(block_of(page->options)); /* next-mail is not known there */
    for (from = page->pieces; from < end; from = to + 1) {
        to = from;
        if (!parts_notes(page->notes + from->place, from->length))
            while (to + 1 < end && !parts_notes(page->notes + to[1].place, to[1].length))
                to++;
        if (!begun)
            explain_stretch(page, from, to);
        begun = false;
    }
}

/* ---- the page */

/* There are as many pieces as lines, or fewer. */
static bool read_page(struct page *page) {
    page->lines = calloc(page->lines_len + 1, sizeof *page->lines);
    page->pieces = calloc(page->lines_len + 1, sizeof *page->pieces);
    if (page->lines == NULL || page->pieces == NULL || !find_pieces(page))
        return false;
    find_lines(page);
    explain_lines(page);
    return true;
}

/* What a browser can show at once: the last of a longer digest. */
enum { MOST_LINES = 65536, MOST_BYTES = 4 << 20 };

static size_t line_before(const struct buffer *text, size_t end) {
    do
        end--;
    while (end > 0 && text->bytes[end - 1] != '\n');
    return end;
}

/* From the end of the digest up, as many lines as there is room for. Every line is ended. */
static void choose_lines(struct page *page) {
    const struct buffer *text = &page->digest->text;
    size_t from = text->length, before;
    page->lines_len = 0;
    while (from > 0 && page->lines_len < MOST_LINES) {
        before = line_before(text, from);
        if (text->length - before > MOST_BYTES && page->lines_len > 0)
            break;
        from = before;
        page->lines_len++;
    }
    page->shown_from = from;
    page->above = feeds(text->bytes, from);
    page->damaged_above = damaged_lines(text->bytes, 0, from);
}

enum outcome find_page(struct page *page, enum outcome outcome) {
    if (outcome == MADE)
        choose_lines(page);
    if (outcome == MADE && !read_page(page)) {
        say("%s: no memory for the page", page->label);
        outcome = NOT_READ;
    }
    if (outcome == MADE)
        put_digest(&page->panel, &page->facts, &page->digest->text, tab_of(page->options), false);
    return outcome;
}

void free_page(struct page *page) {
    free(page->lines);
    free(page->pieces);
    page->lines = NULL;
    page->pieces = NULL;
    page->pieces_len = 0;
}

/* A page that says why there is no digest: an empty one would look like a quiet night. */
void draw_found(FILE *out, struct page *page, enum outcome outcome, const char *reason) {
    struct buffer notes = {(uint8_t *)page->notes, page->notes_len, page->notes_len};
    if (outcome == MADE) {
        put_page(out, page);
        return;
    }
    put_failure(&page->panel, &page->facts, outcome, reason, &notes, page->options == NULL ? 8 : tab_of(page->options), false);
    put_failed_page(out, page, outcome, reason);
}

/* All of it is in memory before a byte is written. */
static bool write_page(struct page *page, enum outcome outcome, const char *reason) {
    struct sheet sheet;
    bool well = open_sheet(&sheet);
    if (well) {
        draw_found(sheet.out, page, outcome, reason);
        well = close_sheet(&sheet);
    }
    if (!well)
        say("%s: no memory for the page", page->label);
    well = well && write_out(sheet.bytes, sheet.length);
    free(sheet.bytes);
    return well;
}

static int write_failure(struct page *page, enum outcome outcome, const char *reason, int status) { return write_page(page, outcome, reason) ? status : FAILED; }

/* The notes that the page shows are those that were formatted. Where reading stopped early, a character that it cut off does not make a line
 * look damaged. */
static bool mend_shown(struct page *page, struct buffer *notes, bool whole) {
    size_t most = notes->length < 3 ? 0 : notes->length - 3;
    if (page->options->value[SALVAGE] == NULL)
        return true;
    while (!whole && notes->length > most && notes->bytes[notes->length - 1] >= 0x80)
        notes->length--;
    if (!mend_notes(notes, &page->mended))
        return false;
    page->facts.mended_lines = page->mended.lines;
    page->facts.mended_bytes = page->mended.bytes;
    return true;
}

static int page_of(struct page *page, const char *name) {
    static struct window window;
    static struct buffer notes;
    static struct digest digest;
    enum outcome outcome;
    window.kept = &notes;
    outcome = digest_file(page->options, name, &window, &digest);
    if (!mend_shown(page, &notes, window.ended)) {
        say("%s: no memory for the mended notes", page->label);
        outcome = NOT_READ;
        notes.length = 0;
    }
    page->digest = &digest;
    page->notes = notes.bytes;
    page->notes_len = notes.length;
    page->read_whole = window.ended;
    outcome = find_page(page, outcome);
    if (outcome != MADE)
        return write_failure(page, outcome, last_said(), FAILED);
    return write_page(page, MADE, NULL) ? WELL : FAILED;
}

static int run_page(const struct options *options) {
    static struct page page;
    const char *name = options->count == 0 ? "-" : options->files[0];
    int status;
    page.options = options;
    page.label = label_of(name);
    page.facts = facts_of(name);
    if (!options_accepted(options))
        return write_failure(&page, REFUSED, last_said(), WRONG_CALL);
    if (options->count > 1) {
        say("the page shows one file, and %d are named", options->count);
        wrong_call();
        return write_failure(&page, NOT_READ, last_said(), WRONG_CALL);
    }
    status = page_of(&page, name);
    say_mended(page.label, &page.mended);
    free_page(&page);
    return status;
}

static int run_page_wrongly(const struct options *options) {
    static struct page page;
    page.options = options;
    page.label = "the notes";
    page.facts = facts_of("-");
    return write_failure(&page, NOT_READ, "rudignals page was called wrongly, and said why on standard error", WRONG_CALL);
}

static const int TAKES[] = {'o', FORMATTING, SALVAGE, 0};

const struct subcommand page_subcommand = {
    .name = "page",
    .does = "write a page on which lines of a digest can be pointed at",
    .arguments = "[FILE] >PAGE",
    .about = "Formats FILE, or standard input (also -), as `format' does, and writes a page\n"
             "for a browser: the digest line by line; for the line that is pointed at, with\n"
             "the mouse, a finger or the arrow keys, the notes that it comes from, byte for\n"
             "byte, and why it ends where it does; and its last 24 lines as the wall panel\n"
             "shows them. The page is one file, loads nothing and works without script too.\n"
             "What stands in the notes is shown and takes no effect.\n",
    .takes = TAKES,
    .limits = "Damaged lines and lines over the width are listed first. Where there is no\n"
              "digest, because FILE is refused or cannot be read, the page says so, and shows\n"
              "the notes and the place in them.\n"
              "\n"
              LIMIT
              "Of a digest of more than 65536 lines or 4 MiB the page shows the last.\n",
    .statuses = "0 the page shows a digest; 1 something was refused, not read or\n"
                "not written; 2 a wrong call",
    .draws = true,
    .run = run_page,
    .run_wrongly = run_page_wrongly,
};
