/* The page: one file of HTML with its style and its script, which loads nothing.
 *
 * Notes and names stand in it as text alone, by markup.c, and in no attribute, style or script; the content policy lets no script run but
 * the page's own, by its hash. Every line is a link to its piece of the notes, so the page works without script; the script marks, and
 * shows of the pieces the one that is pointed at. */
#include "page.h"

#include "numbers.h"

#include <inttypes.h>
#include <stdlib.h>
#include <string.h>

/* No byte of the notes. */
static const size_t NOWHERE = (size_t)-1;

/* ---- words */

static void put_count(FILE *out, uint64_t number) {
    char room[GROUPED];
    fputs(in_thousands(number, room), out);
}

static void put_counted(FILE *out, uint64_t number, const char *one, const char *many) {
    put_count(out, number);
    fprintf(out, " %s", number == 1 ? one : many);
}

/* ---- the frame of every page */

static void put_all(FILE *out, const char *const *lines) {
    for (; *lines != NULL; lines++)
        fputs(*lines, out);
}

/* The mark of byte order makes it UTF-8 whatever a server says of it. */
static void put_head(FILE *out, const char *what, const char *label) {
    fputs("\xEF\xBB\xBF<!doctype html>\n<html lang=en>\n<meta charset=utf-8>\n", out);
    fprintf(out, "<meta http-equiv=Content-Security-Policy content=\"default-src 'none'; style-src 'sha256-%s'; script-src 'sha256-%s'; base-uri 'none'; form-action 'none'\">\n",
            PAGE_STYLE_HASH, PAGE_SCRIPT_HASH);
    fputs("<meta name=viewport content='width=device-width, initial-scale=1'>\n<meta name=color-scheme content='light dark'>\n"
          "<meta name=referrer content=no-referrer>\n<meta name=generator content='rudignals " RUDIGNALS_VERSION "'>\n<title>",
          out);
    fputs(what, out);
    put_name(out, label);
    fputs("</title>\n<style>", out);
    put_all(out, PAGE_STYLE);
    fputs("</style>\n<script>", out);
    put_all(out, PAGE_SCRIPT);
    fputs("</script>\n<body>\n<p id=cut role=alert>This page is not whole: it is still being read, or it was cut short.</p>\n", out);
}

/* A row that goes on with the line above is marked beside its cells. */
static const char *class_of_row(const struct panel *panel, int row) {
    return row >= ROWS - panel->bar ? " class=bar" : panel->continued[row] ? " class=g" : "";
}

static void put_wall(FILE *out, const struct panel *panel) {
    int row;
    fputs("<section id=wall aria-label='The wall panel'>\n<pre tabindex=0>", out);
    for (row = 0; row < ROWS; row++) {
        fprintf(out, "<span%s>", class_of_row(panel, row));
        put_row(out, panel, row);
        fputs("\n</span>", out);
    }
    fprintf(out, "</pre>\n<p%s>", panel->bar > 0 ? " class=bar" : "");
    put_below_escaped(out, panel, COUNTED);
    fputs("; ", out);
    put_below_escaped(out, panel, DATED);
    fputs("</p>\n<p><a href=#top>Back to the page</a></p>\n</section>\n", out);
}

static void put_end(FILE *out) { fputs("<i id=end></i>\n", out); }

/* ---- notes, every byte seen */

static size_t line_behind(const uint8_t *bytes, size_t length, size_t at) {
    const uint8_t *feed = memchr(bytes + at, '\n', length - at);
    return feed == NULL ? length : (size_t)(feed - bytes) + 1;
}

/* A list item for each line; that with the marked byte is marked. */
static void put_note_lines(FILE *out, const uint8_t *bytes, size_t length, size_t marked) {
    size_t at = 0, end;
    for (; at < length; at = end) {
        end = line_behind(bytes, length, at);
        fputs(at <= marked && marked < end ? "<li class=at>" : "<li>", out);
        put_raw(out, bytes + at, end - at, marked == NOWHERE ? NOWHERE : marked - at);
        fputs("\n", out);
    }
}

/* ---- the digest */

/* The line of that number, from 0. */
static const struct line *line_of(const struct page *page, size_t number) { return &page->lines[number - page->above]; }

static bool is_damaged(const struct page *page, const struct line *line) {
    (void)page;
    return line->look.damaged > 0;
}

/* A damaged line was kept as it is: that it is long as well tells nothing more. */
static bool is_over(const struct page *page, const struct line *line) { return !is_damaged(page, line) && line->look.columns > width_of(page->options); }

/* Boxes of so many blanks end where goal and width do. */
static void put_rule(FILE *out, const char *class, uint64_t columns) { fprintf(out, "<span class=%s>%*s</span>", class, (int)columns, ""); }

static void put_ruler(FILE *out, uint64_t goal, uint64_t width) {
    uint64_t column;
    put_rule(out, "goal", goal);
    put_rule(out, "width", width);
    fputs("<span class=ruler>", out);
    for (column = 10; column <= width; column += 10)
        fprintf(out, "    +%5" PRIu64, column);
    fprintf(out, "%*s", (int)(width + 10 - column), "");
    fprintf(out, "<small>goal %" PRIu64 ", width %" PRIu64 "</small>\n</span>", goal, width);
}

static void put_digest_line(FILE *out, const struct page *page, size_t number, const struct piece *piece) {
    const struct line *line = line_of(page, number);
    const char *class = is_damaged(page, line) ? " class=d" : is_over(page, line) ? " class=o" : "";
    fprintf(out, "<a id=%zu%s href=#n%lu>", number + 1, class, piece->note);
    put_line(out, page->digest->text.bytes + line->at, line->length, tab_of(page->options));
    fputs("\n</a>", out);
}

static bool is_blank(const struct page *page, const struct line *line) {
    (void)page;
    return line->asked && line->reason[0] == RUDIGNALS_BLANK_LINE;
}

/* Blank lines of the same bytes that follow each other are told together, so many at a time: each by itself, thousands of them would make a
 * page that no browser opens at once. */
enum { MOST_TOGETHER = 100 };

static bool is_alike(const struct page *page, const struct piece *a, const struct piece *b) {
    return a->length == b->length && memcmp(page->notes + a->place, page->notes + b->place, a->length) == 0;
}

/* Of the pieces from one on: how many are told together. */
static size_t told_together(const struct page *page, const struct piece *piece) {
    const struct piece *end = page->pieces + page->pieces_len;
    size_t count = 1;
    if (!is_blank(page, line_of(page, piece->first)))
        return 1;
    while (piece + count < end && count < MOST_TOGETHER && is_alike(page, piece, piece + count))
        count++;
    return count;
}

/* A browser lays out what it shows: so many lines at a time. */
enum { CHUNK = 50 };

static void put_digest_lines(FILE *out, const struct page *page) {
    const struct piece *piece = page->pieces, *next;
    size_t put = page->above;
    fputs("<div id=digest role=region aria-label='The digest, line by line' tabindex=-1><pre>", out);
    put_ruler(out, goal_of(page->options), width_of(page->options));
    for (; piece < page->pieces + page->pieces_len; piece = next) {
        next = piece + told_together(page, piece);
        while (put < next[-1].first + next[-1].count) {
            fputs(put == page->above ? "<span class=k>" : (put - page->above) % CHUNK == 0 ? "</span><span class=k>" : "", out);
            put_digest_line(out, page, put++, piece);
        }
    }
    fputs(put == page->above ? "</pre></div>\n" : "</span></pre></div>\n", out);
}

/* ---- what each line comes from, and why it ends */

/* How long the prefix is with which a text begins, blanks around it apart; all of the text if it does not. */
static size_t prefix_length(const uint8_t *bytes, size_t length, const char *typed) {
    const uint8_t *prefix = (const uint8_t *)typed;
    size_t size = strlen(typed), blanks = blank_length(prefix, size);
    prefix += blanks;
    size -= blanks;
    while (size > 0 && prefix[size - 1] == ' ')
        size--;
    return size <= length && memcmp(bytes, prefix, size) == 0 ? size : length;
}

/* The columns of the word with which a line of the digest begins, after its indent and prefix. A blank of any kind ends it, so that it is
 * never taken for longer than it is. */
static uint64_t first_word(const struct page *page, const struct line *line) {
    const uint8_t *bytes = page->digest->text.bytes + line->at, *end = bytes + line->length;
    bytes += blank_length(bytes, line->length);
    if (page->options->value['p'] != NULL) {
        bytes += prefix_length(bytes, (size_t)(end - bytes), page->options->value['p']);
        bytes += blank_length(bytes, (size_t)(end - bytes));
    }
    return look_at(bytes, word_length(bytes, (size_t)(end - bytes)), 1).columns;
}

/* Whatever the gap before the next word would have been, it has a column or more. */
static bool next_did_not_fit(const struct page *page, size_t number) {
    const struct line *line = line_of(page, number);
    return number + 1 < page->above + page->lines_len && line->reason[1] + 1 + first_word(page, line + 1) > width_of(page->options);
}

/* What a person wants to know; the breaker's numbers are another matter. */
static const char *plain_reason(const struct page *page, size_t number) {
    const struct line *line = line_of(page, number);
    if (!line->asked)
        return "Not asked: too many lines stand here without a blank line.";
    switch (line->reason[0]) {
    case RUDIGNALS_PLAIN_LINE: return is_damaged(page, line) ? "A damaged line, kept: it ends as it does in the notes." : "A plain line: it ends as it does in the notes.";
    case RUDIGNALS_BLANK_LINE: return "A blank line of the notes.";
    case RUDIGNALS_NOT_FIT: return "The next word did not fit.";
    case RUDIGNALS_CHOSEN: return next_did_not_fit(page, number) ? "The next word did not fit." : "Ending here gives a better spread over the lines that follow.";
    case RUDIGNALS_FORCED_BEFORE: return "No line had room for the next word: the break is forced before it.";
    case RUDIGNALS_FORCED_AFTER: return "No line had room for its last word: the break is forced after it.";
    default: return "Its paragraph ends here.";
    }
}

/* The column that the next word would reach is the sum that the fit test compares with the width. */
static void put_not_fit(FILE *out, const uint64_t reason[6], uint64_t width) {
    fputs(" <small class=y>It takes ", out);
    put_counted(out, reason[4], "column", "columns");
    fprintf(out, " and would reach column %" PRIu64 " of %" PRIu64 ".</small>", reason[1] + reason[2] + reason[3] + reason[4], width);
}

static void put_chosen(FILE *out, const uint64_t reason[6], uint64_t goal) {
    fprintf(out, " <small class=x>Chosen: %" PRIu64 " of %" PRIu64 " columns, cost ", reason[1], goal);
    put_count(out, reason[5]);
    fprintf(out, " (line %" PRIu64 ", word %" PRIu64 ", change %" PRIu64 ").</small>", reason[2], reason[3], reason[4]);
}

/* Small, below: the numbers, for kinds that have any. */
static void put_numbers(FILE *out, const struct page *page, const struct line *line) {
    if (line->asked && line->reason[0] == RUDIGNALS_NOT_FIT)
        put_not_fit(out, line->reason, width_of(page->options));
    if (line->asked && line->reason[0] == RUDIGNALS_CHOSEN)
        put_chosen(out, line->reason, goal_of(page->options));
}

static void put_reason(FILE *out, const struct page *page, size_t number) {
    const struct line *line = line_of(page, number);
    fprintf(out, "<p id=r%zu><a href=#%zu>Line ", number + 1, number + 1);
    put_count(out, number + 1);
    fputs("</a> <small>", out);
    put_counted(out, line->look.columns, "column", "columns");
    fprintf(out, "</small> <em>%s</em>", plain_reason(page, number));
    put_numbers(out, page, line);
    fputs("\n", out);
}

static void put_span(FILE *out, uint64_t first, uint64_t count, const char *one, const char *many) {
    fprintf(out, "%s ", count == 1 ? one : many);
    put_count(out, first);
    if (count > 1) {
        fputs(" to ", out);
        put_count(out, first + count - 1);
    }
}

static void put_place(FILE *out, const struct page *page, const struct piece *piece, unsigned long lines, size_t bytes) {
    fputs("<h3>", out);
    put_span(out, piece->note, lines, "Line", "Lines");
    fputs(" of the notes <small>", out);
    put_span(out, piece->place, bytes, "byte", "bytes");
    fputs(" of ", out);
    put_count(out, page->notes_len);
    fputs("</small></h3>\n", out);
}

static unsigned long lines_in(const uint8_t *bytes, size_t length) {
    unsigned long lines = 0;
    size_t at = 0;
    for (; at < length; at = line_behind(bytes, length, at))
        lines++;
    return lines;
}

static void put_piece(FILE *out, const struct page *page, const struct piece *piece) {
    const uint8_t *bytes = page->notes + piece->place;
    size_t i;
    fprintf(out, "<section id=n%lu>", piece->note);
    for (i = 0; i < piece->count; i++)
        put_reason(out, page, piece->first + i);
    put_place(out, page, piece, lines_in(bytes, piece->length), piece->length);
    fprintf(out, "<ol start=%lu>", piece->note);
    put_note_lines(out, bytes, piece->length, NOWHERE);
    fputs("</ol></section>\n", out);
}

/* So many blank lines, each of the same bytes. */
static void put_blank_lines(FILE *out, const struct page *page, const struct piece *piece, size_t count) {
    fprintf(out, "<section id=n%lu><p id=r%zu><a href=#%zu>", piece->note, piece->first + 1, piece->first + 1);
    put_span(out, piece->first + 1, count, "Line", "Lines");
    fputs("</a> <small>", out);
    put_counted(out, line_of(page, piece->first)->look.columns, "column", "columns");
    fputs("</small> <em>Blank lines of the notes.</em>\n", out);
    put_place(out, page, piece, count, count * piece->length);
    fprintf(out, "<ol start=%lu>", piece->note);
    put_note_lines(out, page->notes + piece->place, piece->length, NOWHERE);
    fputs("</ol><p class=e>", out);
    put_count(out, count);
    fputs(" lines of these same bytes</p></section>\n", out);
}

static void put_pieces(FILE *out, const struct page *page) {
    const struct piece *piece = page->pieces;
    size_t count;
    fputs("<aside id=notes aria-label='The notes under the line, and why it ends there' tabindex=-1>\n", out);
    if (page->lines_len > 0)
        fputs("<p class=hint><span class=mouse>Point at</span><span class=touch>Tap</span> a line of the digest: the notes that it comes from stand here, byte for byte, "
              "and why it ends where it does.</p>\n",
              out);
    for (; piece < page->pieces + page->pieces_len; piece += count) {
        count = told_together(page, piece);
        if (count == 1)
            put_piece(out, page, piece);
        else
            put_blank_lines(out, page, piece, count);
    }
    fputs("</aside>\n", out);
}

/* ---- what must not be missed */

typedef bool chosen_line(const struct page *page, const struct line *line);

static bool was_not_asked(const struct page *page, const struct line *line) {
    (void)page;
    return !line->asked;
}

static size_t count_lines(const struct page *page, chosen_line *chosen) {
    size_t count = 0, i;
    for (i = 0; i < page->lines_len; i++)
        count += chosen(page, &page->lines[i]);
    return count;
}

/* The first so many are linked to. */
enum { MOST_LINKS = 60 };

static void put_links(FILE *out, const struct page *page, chosen_line *chosen) {
    size_t put = 0, count = count_lines(page, chosen), i;
    for (i = 0; i < page->lines_len && put < MOST_LINKS; i++) {
        if (!chosen(page, &page->lines[i]))
            continue;
        fprintf(out, "%s<a href=#%zu>", put++ == 0 ? ": line " : ", ", page->above + i + 1);
        put_count(out, page->above + i + 1);
        fputs("</a>", out);
        if (chosen == is_over)
            fprintf(out, " (%" PRIu64 " columns)", page->lines[i].look.columns);
    }
    if (count > put) {
        fputs(" and ", out);
        put_counted(out, count - put, "other", "others");
    }
}

static void put_warning(FILE *out, const struct page *page, chosen_line *chosen, const char *class, const char *one, const char *many) {
    size_t count = count_lines(page, chosen);
    if (count == 0)
        return;
    fprintf(out, "<li class=%s><strong>", class);
    put_counted(out, count, one, many);
    fputs("</strong>", out);
    put_links(out, page, chosen);
    fputs("\n", out);
}

/* Nothing is to be missed: of notes, or because there are none. */
static void put_calm(FILE *out, const struct page *page) {
    fputs("<p id=calm>", out);
    if (page->lines_len == 0)
        fputs("No notes: the file is empty.", out);
    else if (count_lines(page, is_blank) == page->lines_len)
        fputs(page->lines_len == 1 ? "No text: the only line of the notes is blank." : "No text: every line of the notes is blank.", out);
    else
        fputs("Nothing is damaged, and no line is over the width.", out);
    fputs("</p>\n", out);
}

/* Nothing is mended silently. */
static void put_mended(FILE *out, const struct mended *mended) {
    fputs("<strong>", out);
    put_counted(out, mended->lines, "line of the notes mended", "lines of the notes mended");
    fputs("</strong>: ", out);
    put_counted(out, mended->bytes, "byte that was no UTF-8 is", "bytes that were no UTF-8 are");
    fputs(" read as ISO 8859-1. The notes here are the mended ones.", out);
    if (mended->nameless > 0) {
        fputs(" ISO 8859-1 has no letter for ", out);
        put_counted(out, mended->nameless, "of these bytes", "of these bytes");
        fputs(", 80 to 9F: they may be windows-1252.", out);
    }
}

/* Nothing is left out silently. */
static void put_above(FILE *out, const struct page *page) {
    fputs("<li class=a><strong>", out);
    put_counted(out, page->above, "line above is not on this page", "lines above are not on this page");
    fputs("</strong>", out);
    if (page->damaged_above > 0) {
        fputs(", ", out);
        put_counted(out, page->damaged_above, "of them damaged", "of them damaged");
    }
    fputs(": it has room for the last of the digest. rudignals format writes all of it.\n", out);
}

static void put_warnings(FILE *out, const struct page *page) {
    if (count_lines(page, is_damaged) + count_lines(page, is_over) + count_lines(page, was_not_asked) + page->mended.lines + page->above == 0) {
        put_calm(out, page);
        return;
    }
    fputs("<section id=seen aria-label='Not to be missed'><ul>", out);
    if (page->mended.lines > 0) {
        fputs("<li class=m>", out);
        put_mended(out, &page->mended);
        fputs("\n", out);
    }
    if (page->above > 0)
        put_above(out, page);
    put_warning(out, page, is_damaged, "d", "damaged line, kept as it is", "damaged lines, kept as they are");
    put_warning(out, page, is_over, "o", "line over the width", "lines over the width");
    put_warning(out, page, was_not_asked, "n", "line whose end was not asked about", "lines whose ends were not asked about");
    fputs("</ul></section>\n", out);
}

/* ---- the pages */

static void put_title(FILE *out, const struct page *page) {
    fputs("<header id=top>\n<h1>Digest of <span class=name>", out);
    put_raw(out, (const uint8_t *)page->label, strlen(page->label), NOWHERE);
    fputs("</span></h1>\n<p>", out);
    put_counted(out, page->above + page->lines_len, "line", "lines");
    fputs(" from ", out);
    put_counted(out, page->notes_len, "byte", "bytes");
    fputs(" of notes</p>\n<nav aria-label='This page'><a href=#digest>Digest</a> <a href=#notes>Notes</a> <a href=#wall>Wall panel</a></nav>\n</header>\n", out);
}

static const char KEYS[] = "<footer><kbd>&uarr;</kbd> <kbd>&darr;</kbd> line, <kbd>Enter</kbd> its notes, <kbd>n</kbd> next not to be missed, <kbd>w</kbd> wall panel, "
                           "<kbd>Esc</kbd> back</footer>\n";

void put_page(FILE *out, const struct page *page) {
    put_head(out, "Digest of ", page->label);
    put_title(out, page);
    put_warnings(out, page);
    fputs("<main>\n", out);
    put_digest_lines(out, page);
    put_pieces(out, page);
    fputs("</main>\n", out);
    fputs(KEYS, out);
    put_wall(out, &page->panel);
    put_end(out);
}

/* The place with some lines before and after it. */
static void put_excerpt(FILE *out, const struct page *page, const struct refusal *refusal) {
    size_t from = refusal->place, to, before = 0, i;
    for (; from > 0 && (page->notes[from - 1] != '\n' || before < 3); from--)
        before += page->notes[from - 1] == '\n';
    for (to = refusal->place, i = 0; i < 4; i++)
        to = line_behind(page->notes, page->notes_len, to);
    fprintf(out, "<section><h2>The place in the notes</h2>\n<ol start=%zu>", refusal->line - before);
    put_note_lines(out, page->notes + from, to - from, refusal->place - from);
    fputs("</ol></section>\n", out);
}

/* Of notes that no page could show, the beginning. */
enum { MOST_NOTES_SHOWN = 1 << 20 };

static void put_all_notes(FILE *out, const struct page *page) {
    size_t length = page->notes_len < MOST_NOTES_SHOWN ? page->notes_len : MOST_NOTES_SHOWN;
    fputs(page->mended.lines > 0 ? "<section><h2>All the notes, as they were mended</h2>\n<ol>" : "<section><h2>All the notes, as they are</h2>\n<ol>", out);
    put_note_lines(out, page->notes, length, NOWHERE);
    fputs("</ol>\n", out);
    if (length < page->notes_len || !page->read_whole) {
        fputs("<p>The file goes on: its first ", out);
        put_counted(out, length, "byte", "bytes");
        fputs(" are shown.</p>\n", out);
    }
    fputs("</section>\n", out);
}

static const char *headline(const struct page *page, enum outcome outcome) {
    if (outcome == NOT_READ)
        return "NOT READ: there may be notes, and none is shown";
    return page->notes_len > 0 ? "REFUSED: there are notes, and no digest of them" : "REFUSED: there may be notes, and none is shown";
}

void put_failed_page(FILE *out, const struct page *page, enum outcome outcome, const char *reason) {
    bool placed = page->digest != NULL && page->digest->refusal.code != RUDIGNALS_DONE && page->digest->refusal.place < page->notes_len;
    put_head(out, outcome == REFUSED ? "REFUSED: " : "NOT READ: ", page->label);
    fprintf(out, "<header id=top class=bar role=alert>\n<h1>%s</h1>\n<p>", headline(page, outcome));
    put_raw(out, (const uint8_t *)reason, strlen(reason), NOWHERE);
    fputs("</p>\n", out);
    if (page->mended.lines > 0) {
        fputs("<p>", out);
        put_mended(out, &page->mended);
        fputs("</p>\n", out);
    }
    fputs("<nav aria-label='This page'><a href=#wall>Wall panel</a></nav></header>\n<main id=failed>\n", out);
    if (placed)
        put_excerpt(out, page, &page->digest->refusal);
    if (outcome == REFUSED && page->notes_len > 0)
        put_all_notes(out, page);
    fputs("</main>\n", out);
    put_wall(out, &page->panel);
    put_end(out);
}
