/* What every drawing tells: the rows, and below them how many lines there are, which are above, when it was drawn and of which file. */
#define _POSIX_C_SOURCE 200809L
#include "panel.h"

#include "say.h"

#include <stdlib.h>
#include <string.h>
#include <sys/stat.h>

struct facts facts_of(const char *name) {
    struct facts facts = {.label = label_of(name), .drawn = time(NULL)};
    struct stat about;
    facts.dated = strcmp(name, "-") != 0 && stat(name, &about) == 0;
    if (facts.dated)
        facts.changed = about.st_mtime;
    return facts;
}

/* ---- times, in the zone that the system is set to */

enum { MOMENT = 40 };

static void put_moment(char room[MOMENT], const char *form, time_t moment) {
    struct tm parts;
    if (localtime_r(&moment, &parts) == NULL || strftime(room, MOMENT, form, &parts) == 0)
        memcpy(room, "an unknown time", sizeof "an unknown time");
}

static bool same_day(time_t a, time_t b) {
    char one[MOMENT], other[MOMENT];
    put_moment(one, "%Y-%m-%d", a);
    put_moment(other, "%Y-%m-%d", b);
    return strcmp(one, other) == 0;
}

/* On the day of the drawing the time alone. */
static void put_time(char room[MOMENT], time_t moment, time_t drawn) {
    put_moment(room, same_day(moment, drawn) ? "%H:%M:%S" : "%Y-%m-%d %H:%M:%S", moment);
}

/* ---- the lines below the panel: they also tell a quiet night from a failure */

static const char *const STATE[] = {[MADE] = "", [NOT_READ] = "not read", [REFUSED] = "refused", [ENDED] = "no longer followed"};

static const char *plural(size_t count) { return count == 1 ? "" : "s"; }

/* So many lines, and so many damaged ones; the word for the first may be left out. */
static bool put_lines(struct buffer *out, size_t lines, size_t damaged, bool brief) {
    if (!buffer_print(out, "%zu%s%s, ", lines, brief ? "" : " line", brief ? "" : plural(lines)))
        return false;
    return damaged == 0 ? buffer_print(out, "none damaged") : buffer_print(out, "%zu damaged", damaged);
}

/* Of a text that has something to be seen. */
static bool put_counts(struct buffer *out, const struct rows *rows, bool brief) {
    const struct counts *counts = &rows->counts;
    bool well = put_lines(out, counts->lines, counts->damaged, false);
    if (rows->cut)
        well = well && (counts->cut == 0 ? buffer_print(out, ", none cut") : buffer_print(out, ", %zu cut", counts->cut));
    if (counts->above == 0)
        well = well && buffer_print(out, "; none above");
    else
        well = well && buffer_print(out, brief ? "; above " : "; above: ") && put_lines(out, counts->above, counts->damaged_above, brief);
    if (counts->blank > 0)
        well = well && buffer_print(out, "; %zu blank below", counts->blank);
    return well;
}

/* What was mended stands first: it must not be cut off. */
static bool put_counted(struct buffer *out, const struct facts *facts, const struct rows *rows, enum outcome outcome, bool brief) {
    const struct counts *counts = &rows->counts;
    bool known = outcome == MADE || counts->lines > 0;
    if (!buffer_print(out, "%s%s", STATE[outcome], outcome != MADE && known ? ": " : ""))
        return false;
    if (facts->mended_lines > 0 && !buffer_print(out, "mended: %zu line%s, %zu byte%s; ", facts->mended_lines, plural(facts->mended_lines), facts->mended_bytes,
                                                 plural(facts->mended_bytes)))
        return false;
    if (!known)
        return true;
    if (counts->lines == 0)
        return buffer_print(out, "no notes: the file is empty");
    if (counts->lines == counts->blank)
        return buffer_print(out, "no text: %zu blank line%s", counts->lines, plural(counts->lines));
    return put_counts(out, rows, brief);
}

/* The name stands last: it may be of any length. */
static bool put_dated(struct buffer *out, const struct facts *facts) {
    char drawn[MOMENT], changed[MOMENT];
    put_moment(drawn, "%Y-%m-%d %H:%M:%S", facts->drawn);
    if (!facts->dated)
        return buffer_print(out, "drawn %s: %s", drawn, facts->label);
    put_time(changed, facts->changed, facts->drawn);
    return buffer_print(out, "drawn %s, changed %s: %s", drawn, changed, facts->label);
}

/* Of a path the last name. */
static const char *short_name(const char *name) {
    const char *slash = strrchr(name, '/');
    return slash == NULL || slash[1] == '\0' ? name : slash + 1;
}

static bool put_brief(struct buffer *out, const struct facts *facts, const struct rows *rows, enum outcome outcome, int *counted) {
    char drawn[MOMENT], changed[MOMENT];
    put_moment(drawn, "%H:%M:%S", facts->drawn);
    if (!buffer_print(out, "%s ", drawn) || !put_counted(out, facts, rows, outcome, true))
        return false;
    *counted = out->length < COLUMNS ? (int)out->length : COLUMNS;
    if (!facts->dated)
        return buffer_print(out, "; %s", short_name(facts->label));
    put_moment(changed, same_day(facts->changed, facts->drawn) ? "%H:%M" : "%m-%d %H:%M", facts->changed);
    return buffer_print(out, "; changed %s %s", changed, short_name(facts->label));
}

/* A line's words, without control characters; no word of it is lost silently. */
static void put_words(struct panel *panel, enum line_below line, struct buffer *text, bool well) {
    char *plain = well && buffer_add(text, "", 1) ? words("%s", (const char *)text->bytes) : NULL;
    put_below(panel, line, plain == NULL ? "no memory for the words below the panel" : plain);
    free(plain);
    text->length = 0;
}

static void put_lines_below(struct panel *panel, const struct facts *facts, const struct rows *rows, enum outcome outcome) {
    struct buffer text = {0};
    put_words(panel, COUNTED, &text, put_counted(&text, facts, rows, outcome, false));
    put_words(panel, DATED, &text, put_dated(&text, facts));
    put_words(panel, BRIEF, &text, put_brief(&text, facts, rows, outcome, &panel->counted));
    buffer_free(&text);
}

/* ---- a digest */

static void put_rows(struct panel *panel, const struct rows *rows, uint64_t tab) {
    put_cells(panel->cells, rows->text.length == 0 ? (const uint8_t *)"" : rows->text.bytes, rows->text.length, tab);
    memcpy(panel->continued + ROWS - rows->count, rows->continued, (size_t)rows->count * sizeof *rows->continued);
    panel->cut = rows->cut;
    panel->warned = rows->counts.damaged_above > 0;
}

void put_digest(struct panel *panel, const struct facts *facts, const struct buffer *digest, uint64_t tab, bool cut) {
    struct rows rows = {0};
    *panel = (struct panel){.drawn = facts->drawn};
    find_rows(&rows, digest, tab, cut, ROWS);
    put_rows(panel, &rows, tab);
    put_lines_below(panel, facts, &rows, MADE);
    buffer_free(&rows.text);
}

/* ---- a failure: the words at the bottom, the end of the notes above */

static const char *const HEADLINE[] = {[NOT_READ] = "NOT READ: there may be notes, and none is shown",
                                       [REFUSED] = "REFUSED: there may be notes, and none is shown",
                                       [ENDED] = "ENDED: there may be newer notes, and none is shown"};
static const char WITH_NOTES[] = "REFUSED: not formatted; above is the end of the notes as they are";

/* The reason, broken into lines that fit a row; where that cannot be had, as it is. Takes quick lines, which keep to the width. */
static bool break_lines(struct buffer *text, const char *reason) {
    size_t length = strlen(reason), block_len;
    uint8_t block[RUDIGNALS_MOST_BLOCK];
    uint64_t answer;
    block_len = rudignals_put_number(block, 0, RUDIGNALS_TAG_FLAGS, RUDIGNALS_QUICK | RUDIGNALS_KEEP);
    block_len = rudignals_put_number(block, block_len, RUDIGNALS_TAG_WIDTH, COLUMNS);
    answer = rudignals_measure(block, block_len, (const uint8_t *)reason, length);
    if (rudignals_code_of(answer) != RUDIGNALS_DONE)
        return buffer_add(text, reason, length) && buffer_add(text, "\n", 1);
    if (!buffer_room(text, rudignals_number_of(answer)))
        return false;
    answer = rudignals_write(block, block_len, (const uint8_t *)reason, length, text->bytes, rudignals_number_of(answer));
    text->length = rudignals_number_of(answer);
    return true;
}

/* The bottom rows; the headline is the last, where the newest is looked for. The cells above them are left blank. */
static void put_bar(struct panel *panel, const char *headline, const char *reason) {
    struct buffer text = {0};
    struct rows rows = {0};
    if (!break_lines(&text, reason) || !buffer_add(&text, headline, strlen(headline))) {
        put_cells(panel->cells, headline, strlen(headline), 8);
        panel->bar = 1;
    } else {
        find_rows(&rows, &text, 8, false, ROWS);
        put_rows(panel, &rows, 8);
        panel->bar = rows.count;
    }
    buffer_free(&text);
    buffer_free(&rows.text);
}

/* The rows above the bar. */
static void put_notes(struct panel *panel, const struct rows *rows, uint64_t tab) {
    struct panel above = {0};
    int free_rows = ROWS - panel->bar;
    put_rows(&above, rows, tab);
    memcpy(panel->cells, above.cells + panel->bar * COLUMNS, (size_t)(free_rows * COLUMNS) * sizeof *panel->cells);
    memcpy(panel->continued, above.continued + panel->bar, (size_t)free_rows * sizeof *panel->continued);
    panel->cut = above.cut;
    panel->warned = above.warned;
}

void put_failure(struct panel *panel, const struct facts *facts, enum outcome outcome, const char *reason, const struct buffer *notes, uint64_t tab, bool cut) {
    bool shown = outcome == REFUSED && notes != NULL && notes->length > 0;
    struct rows rows = {0};
    *panel = (struct panel){.drawn = facts->drawn};
    put_bar(panel, shown ? WITH_NOTES : HEADLINE[outcome], reason);
    if (shown) {
        find_rows(&rows, notes, tab, cut, ROWS - panel->bar);
        put_notes(panel, &rows, tab);
    }
    put_lines_below(panel, facts, &rows, outcome);
    buffer_free(&rows.text);
}

/* ---- a drawing that could not be written */

/* In the one line, after time and counts, in the place of the file's name; what does not fit is cut as the library cuts. */
static void put_brief_trouble(struct panel *panel, const struct trouble *trouble) {
    uint32_t cells[ROWS * COLUMNS], *row = cells + (ROWS - 1) * COLUMNS, *brief = panel->below[BRIEF];
    int room = COLUMNS - panel->counted, last;
    char *text = words("; not written: %s", trouble->words);
    if (text != NULL && room > 0) {
        put_cells(cells, text, strlen(text), 8);
        for (last = COLUMNS; last > room && row[last - 1] == ' ';)
            last--;
        memcpy(brief + panel->counted, row, (size_t)room * sizeof *brief);
        if (last > room) {
            if (row[room - 1] == FILLER && room > 1)
                brief[COLUMNS - 2] = ' ';
            brief[COLUMNS - 1] = '+';
        }
    }
    free(text);
}

void put_trouble(struct panel *panel, const struct trouble *trouble) {
    char since[MOMENT], until[MOMENT];
    struct buffer text = {0};
    panel->unwritten = trouble->words != NULL && trouble->lasts;
    if (panel->unwritten)
        put_brief_trouble(panel, trouble);
    if (trouble->words == NULL)
        return;
    put_time(since, trouble->since, panel->drawn);
    put_time(until, trouble->until, panel->drawn);
    put_words(panel, TROUBLE, &text, buffer_print(&text, "not written from %s to %s: %s", since, until, trouble->words));
    buffer_free(&text);
}
