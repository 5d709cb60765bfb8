/* Every file of a night, made in memory from the same notes. Where there is no digest each of them says so and shows the notes: none is empty
 * unless the notes are. */
#define _POSIX_C_SOURCE 200809L
#include "night.h"

#include "drawn.h"
#include "json.h"
#include "lines.h"
#include "numbers.h"
#include "page.h"
#include "say.h"
#include "subcommand.h"
#include "visible.h"

#include <errno.h>
#include <inttypes.h>
#include <stdlib.h>
#include <string.h>
#include <unistd.h>

const char *const OUTPUT_NAMES[OUTPUTS] = {
    [DIGEST_TXT] = "digest.txt", [DIGEST_EML] = "digest.eml", [PAGE_HTML] = "page.html",     [WALL_SVG] = "wall.svg",
    [WALL_HTML] = "wall.html",   [INDEX_JSON] = "index.json", [STATUS_JSON] = "status.json",
};

static const char *headline(const struct night *night) {
    return night->outcome == NOT_READ ? "NOT READ: there may be notes, and none is shown" : "REFUSED: there are notes, and no digest of them";
}

static const char *reason_of(const struct night *night) { return night->reason == NULL ? "there is no memory for the words" : night->reason; }

/* ---- digest.txt */

/* What is in the place of a digest: the refusal, and the notes as they are. */
static bool add_refusal(struct buffer *out, const struct night *night) {
    bool well = buffer_print(out, "%s\n%s\n", headline(night), reason_of(night));
    if (night->notes.length == 0)
        return well;
    return well && buffer_print(out, "\nThe notes as they are:\n\n") && buffer_add(out, night->notes.bytes, night->notes.length);
}

static bool make_text(struct night *night, struct buffer *out) {
    return night->outcome == MADE ? buffer_add(out, night->digest.text.bytes, night->digest.text.length) : add_refusal(out, night);
}

/* ---- digest.eml */

static bool is_stuffed(const uint8_t *line, size_t length) { return length > 0 && (*line == ' ' || *line == '>' || (length >= 5 && memcmp(line, "From ", 5) == 0)); }

/* Text as fixed lines of format=flowed (RFC 3676): no space at a line's end, one more before what would be taken for a mark. */
static bool add_fixed(struct buffer *out, const struct buffer *text) {
    struct lines lines = read_lines(text->bytes, text->length);
    size_t length;
    bool well = true;
    while (well && next_line(&lines)) {
        length = lines.length - lines.fed;
        if (lines.fed && length > 0 && lines.line[length - 1] == '\r')
            length--;
        while (length > 0 && lines.line[length - 1] == ' ')
            length--;
        well = buffer_add(out, " ", is_stuffed(lines.line, length)) && buffer_add(out, lines.line, length) && buffer_add(out, "\r\n", 2);
    }
    return well;
}

static struct bytes bytes_of(const struct buffer *buffer) { return (struct bytes){buffer->bytes, buffer->length}; }

/* The options of mail: what the library refuses in a block for mail is laid out in fixed lines. */
static bool add_flowed(struct buffer *out, const struct night *night) {
    uint64_t answer, dashes = 0;
    struct part part = {0};
    enum found found;
    while ((found = next_part_of(&own_work, block_of(night->options), bytes_of(&night->notes), MOST_PART, &part)) == PART) {
        answer = measure_part(night->options, true, &part);
        if (rudignals_code_of(answer) != RUDIGNALS_DONE || !buffer_room(out, rudignals_number_of(answer)))
            return false;
        out->length += rudignals_number_of(write_part(night->options, true, &part, out->bytes + out->length, rudignals_number_of(answer), &dashes));
    }
    return found == NO_PART;
}

static bool add_mail_text(struct buffer *out, const struct night *night) {
    size_t before = out->length;
    if (night->outcome == MADE && add_flowed(out, night))
        return true;
    out->length = before;
    return add_fixed(out, &night->output[DIGEST_TXT]);
}

static bool add_counted(struct buffer *out, const char *before, size_t count, const char *one, const char *many) {
    char room[GROUPED];
    return count == 0 || buffer_print(out, "%s%s %s", before, in_thousands(count, room), count == 1 ? one : many);
}

static bool add_subject(struct buffer *out, const struct night *night) {
    const char *given = night->options->value[MAIL_SUBJECT];
    bool well = given == NULL ? buffer_print(out, "%s", night->label) : buffer_print(out, "%s", given);
    if (night->outcome != MADE)
        return well && buffer_print(out, ": %s: %s", night->outcome == NOT_READ ? "NOT READ" : "REFUSED", reason_of(night)) && buffer_add(out, "", 1);
    if (night->counts.lines == 0)
        return well && buffer_print(out, ": no notes") && buffer_add(out, "", 1);
    return well && add_counted(out, ": ", night->counts.lines, "line", "lines") && add_counted(out, ", ", night->counts.damaged, "damaged line", "damaged lines") &&
           add_counted(out, ", ", night->facts.mended_lines, "mended line", "mended lines") && buffer_add(out, "", 1);
}

static bool add_sender(struct buffer *out) {
    char host[256] = "";
    if (gethostname(host, sizeof host - 1) != 0 || *host == '\0')
        strcpy(host, "localhost");
    return buffer_print(out, "rudignals@%s", host) && buffer_add(out, "", 1);
}

static bool make_mail(struct night *night, struct buffer *out) {
    struct buffer text = {0}, subject = {0}, sender = {0};
    bool paged = night->options->value[ATTACH_PAGE] != NULL;
    const char *from = night->options->value[MAIL_FROM], *to = night->options->value[MAIL_TO];
    const struct buffer *raw = night->raw.length > 0 ? &night->raw : &night->notes;
    struct attachment attachments[] = {{night->label, "application/octet-stream", raw->bytes, raw->length},
                                       {OUTPUT_NAMES[PAGE_HTML], "text/html; charset=UTF-8", night->output[PAGE_HTML].bytes, night->output[PAGE_HTML].length}};
    struct mail mail = {from, to, NULL, night->facts.drawn, &text, attachments, paged ? 2 : 1};
    bool well = add_mail_text(&text, night) && add_subject(&subject, night) && add_sender(&sender);
    if (well) {
        mail.subject = (const char *)subject.bytes;
        mail.from = from == NULL ? (const char *)sender.bytes : from;
        mail.to = to == NULL ? mail.from : to;
        if (night->notes.length == 0) { /* nothing to attach of notes that are empty or were not read */
            mail.attachments++;
            mail.attached--;
        }
        well = add_mail(out, &mail);
    }
    if (well && longest_line(&text) > MOST_OCTETS)
        say("%s: a line of the mail has over %d octets: it is sent as quoted-printable", night->label, MOST_OCTETS);
    buffer_free(&text);
    buffer_free(&subject);
    buffer_free(&sender);
    return well;
}

/* ---- what is drawn: page.html, wall.svg, wall.html */

/* Puts what was drawn after the file. */
static bool add_sheet(struct buffer *out, struct sheet *sheet) {
    bool well = close_sheet(sheet) && buffer_add(out, sheet->bytes, sheet->length);
    free(sheet->bytes);
    return well;
}

/* A digest that no page can show is told by the page, and by the status. */
static bool make_page(struct night *night, struct buffer *out) {
    static struct page page;
    struct sheet sheet;
    enum outcome outcome;
    page = (struct page){.options = night->options, .label = night->label, .notes = night->notes.bytes, .notes_len = night->notes.length, .read_whole = true,
                         .digest = &night->digest, .facts = night->facts, .mended = night->mended};
    outcome = find_page(&page, night->outcome);
    night->paged = outcome == MADE;
    if (!open_sheet(&sheet))
        return false;
    draw_found(sheet.out, &page, outcome, night->outcome == MADE ? last_said() : reason_of(night));
    free_page(&page);
    return add_sheet(out, &sheet);
}

static void put_panel(struct panel *panel, const struct night *night) {
    uint64_t tab = tab_of(night->options);
    if (night->outcome == MADE)
        put_digest(panel, &night->facts, &night->digest.text, tab, false);
    else
        put_failure(panel, &night->facts, night->outcome, reason_of(night), &night->notes, tab, false);
}

static bool make_drawing(const struct panel *panel, void (*draw)(FILE *out, const struct panel *panel), struct buffer *out) {
    struct sheet sheet;
    if (!open_sheet(&sheet))
        return false;
    draw(sheet.out, panel);
    return add_sheet(out, &sheet);
}

/* ---- index.json */

static bool add_records(struct buffer *out, const struct rudignals_record *index, uint64_t filled, size_t bytes_before, uint64_t lines_before) {
    uint64_t i;
    for (i = 0; i < filled; i++)
        if (!buffer_print(out, "%s\n{\"place\":%" PRIu64 ",\"length\":%" PRIu64 ",\"first\":%" PRIu64 ",\"count\":%" PRIu64 "}", out->bytes[out->length - 1] == '[' ? "" : ",",
                          bytes_before + index[i].place, index[i].length, lines_before + index[i].first + 1, index[i].count))
            return false;
    return true;
}

/* Part by part, as the notes were formatted: the records of one join on to those of the next. */
static bool add_index(struct buffer *out, const struct night *night) {
    struct index index = {0};
    struct buffer room = {0};
    struct part part = {0};
    uint64_t lines = 0, answer;
    bool well = true;
    while (well && next_part_of(&own_work, block_of(night->options), bytes_of(&night->notes), MOST_PART, &part) == PART) {
        answer = measure_part(night->options, false, &part);
        well = buffer_room(&room, rudignals_number_of(answer) + 1u);
        if (well)
            answer = index_part(night->options, &part, room.bytes, rudignals_number_of(answer), &index);
        well = well && rudignals_code_of(answer) == RUDIGNALS_DONE && add_records(out, index.records, index.filled, part.bytes_before, lines);
        lines += well ? lines_of_index(&index) : 0;
    }
    buffer_free(&room);
    free_index(&index);
    return well;
}

static bool make_index(struct night *night, struct buffer *out) {
    if (night->outcome != MADE)
        return buffer_print(out, "{\"refused\":") && add_json_words(out, reason_of(night)) && buffer_print(out, "}\n");
    return buffer_print(out, "[") && add_index(out, night) && buffer_print(out, "\n]\n");
}

/* ---- status.json */

static bool add_time(struct buffer *out, const char *key, bool known, time_t time) {
    struct tm utc;
    char text[32];
    if (!known || gmtime_r(&time, &utc) == NULL || strftime(text, sizeof text, "%Y-%m-%dT%H:%M:%SZ", &utc) == 0)
        return buffer_print(out, ",\n\"%s\":null", key);
    return buffer_print(out, ",\n\"%s\":\"%s\"", key, text);
}

/* The options as they were typed, by their long names. */
static bool add_options(struct buffer *out, const struct options *options) {
    int option;
    bool well = buffer_print(out, ",\n\"options\":{");
    for (option = 1; well && option < OPTIONS; option++)
        if (options->value[option] != NULL) {
            well = buffer_print(out, "%s\"%s\":", out->bytes[out->length - 1] == '{' ? "" : ",", name_of(option));
            well = well && (row_of(option)->value == NULL ? buffer_print(out, "true") : add_json_words(out, options->value[option]));
        }
    return well && buffer_print(out, "}");
}

static bool make_status(struct night *night, struct buffer *out) {
    static const char *const OUTCOMES[] = {[MADE] = "made", [NOT_READ] = "not read", [REFUSED] = "refused", [ENDED] = "ended"};
    bool well = buffer_print(out, "{\"version\":\"%s\",\n\"notes\":", RUDIGNALS_VERSION) && add_json_words(out, night->name) &&
                buffer_print(out, ",\n\"outcome\":\"%s\",\n\"why\":", OUTCOMES[night->outcome]);
    well = well && (night->outcome == MADE ? buffer_print(out, "null") : add_json_words(out, reason_of(night)));
    well = well && add_time(out, "made", true, night->facts.drawn) && add_time(out, "changed", night->facts.dated, night->facts.changed) && add_options(out, night->options);
    return well && buffer_print(out, ",\n\"bytes\":{\"notes\":%zu,\"digest\":%zu},\n\"lines\":{\"digest\":%zu,\"damaged\":%zu,\"mended\":%zu},\n\"refused\":%s}\n", night->notes.length,
                                night->digest.text.length, night->counts.lines, night->counts.damaged, night->facts.mended_lines, night->outcome == MADE ? "false" : "true");
}

/* ---- all of them */

static void count_lines(struct night *night) {
    static struct rows rows;
    if (night->outcome != MADE)
        return;
    find_rows(&rows, &night->digest.text, tab_of(night->options), true, ROWS);
    night->counts = rows.counts;
}

static void begin_outputs(struct night *night) {
    size_t i;
    for (i = 0; i < OUTPUTS; i++)
        night->output[i].length = 0;
    count_lines(night);
}

bool make_mail_alone(struct night *night) {
    begin_outputs(night);
    return make_text(night, &night->output[DIGEST_TXT]) && make_mail(night, &night->output[DIGEST_EML]);
}

bool make_outputs(struct night *night) {
    static struct panel panel;
    struct buffer *out = night->output;
    begin_outputs(night);
    put_panel(&panel, night);
    return make_text(night, &out[DIGEST_TXT]) && make_page(night, &out[PAGE_HTML]) && make_mail(night, &out[DIGEST_EML]) && make_drawing(&panel, draw_picture, &out[WALL_SVG]) &&
           make_drawing(&panel, draw_page, &out[WALL_HTML]) && make_index(night, &out[INDEX_JSON]) && make_status(night, &out[STATUS_JSON]);
}
