/* What the audit found, in words and as records. */
#include "audit.h"

#include "json.h"
#include "numbers.h"
#include "visible.h"

#include <string.h>

/* ---- records */

static bool add_key(struct buffer *out, const char *key) { return buffer_print(out, "%s\"%s\": ", out->bytes[out->length - 1] == '{' ? "" : ", ", key); }

static bool add_name(struct buffer *out, const char *key, const char *name) {
    return add_key(out, key) && (name == NULL ? buffer_add(out, "null", 4) : add_json_words(out, name));
}

static bool add_items(struct buffer *out, const char *key, const struct stretches *stretches) {
    const struct stretch *row;
    size_t i;
    if (!add_key(out, key) || !buffer_add(out, "[", 1))
        return false;
    for (i = 0; i < stretches->length; i++) {
        row = &stretches->rows[i];
        if (!buffer_print(out, "%s{\"first\": %zu, \"last\": %zu, \"words\": %zu}", i == 0 ? "" : ", ", row->first, row->last, row->words))
            return false;
    }
    return buffer_add(out, "]", 1);
}

static bool add_line_number(struct buffer *out, const struct finding *finding) {
    return add_key(out, "line") && (finding->verdict == LAYOUT ? buffer_print(out, "%zu", finding->line) : buffer_add(out, "null", 4));
}

bool add_record(struct buffer *out, const struct audited *row) {
    const struct finding *finding = &row->finding;
    return buffer_add(out, "{", 1) && add_name(out, "notes", row->pair->notes) && add_name(out, "digest", row->pair->digest) &&
           add_name(out, "verdict", VERDICT_NAMES[finding->verdict]) && add_line_number(out, finding) && add_items(out, "missing", &finding->missing) &&
           add_items(out, "added", &finding->added) && add_name(out, "why", finding->why) && buffer_add(out, "}\n", 2);
}

/* ---- words */

static bool add_count(struct buffer *out, size_t count, const char *one, const char *many) {
    char room[GROUPED];
    return buffer_print(out, "%s %s", in_thousands(count, room), count == 1 ? one : many);
}

static bool add_number(struct buffer *out, const char *before, size_t number) {
    char room[GROUPED];
    return buffer_print(out, "%s%s", before, in_thousands(number, room));
}

static bool add_quoted(struct buffer *out, const struct stretch *row) {
    return buffer_add(out, "\"", 1) && add_visible_line(out, row->quoted, row->quoted_len) && buffer_print(out, "%s\"", row->quoted_whole ? "" : "...");
}

/* All from a line on: so a digest that was cut is seen as cut. */
static bool add_rest(struct buffer *out, const struct stretch *row, const char *text) {
    if (row->whole_lines)
        return add_number(out, "all from line ", row->first) && buffer_print(out, " of the %s on, ", text) && add_count(out, row->words, "word", "words") &&
               buffer_add(out, ", the first ", 12) && add_quoted(out, row);
    return buffer_add(out, "all from ", 9) && add_quoted(out, row) && add_number(out, " in line ", row->first) && buffer_print(out, " of the %s on, ", text) &&
           add_count(out, row->words, "word", "words");
}

static bool add_stretch_of(struct buffer *out, const struct stretch *row, const char *text) {
    bool well = add_number(out, row->first == row->last ? "line " : "lines ", row->first);
    if (row->first != row->last)
        well = well && add_number(out, " to ", row->last);
    return well && buffer_print(out, " of the %s, ", text) && add_count(out, row->words, "word", "words") && buffer_add(out, ", the first ", 12) &&
           add_quoted(out, row);
}

static bool add_place(struct buffer *out, const struct stretch *row, const char *other) {
    if (row->behind == 0)
        return buffer_print(out, " (before line 1 of the %s)", other);
    return add_number(out, " (after line ", row->behind) && buffer_print(out, " of the %s)", other);
}

enum { MOST_TOLD = 3 };

static bool add_stretches(struct buffer *out, const struct stretches *stretches, const char *text, const char *other) {
    size_t i, told = stretches->length < MOST_TOLD ? stretches->length : MOST_TOLD;
    const struct stretch *row;
    for (i = 0; i < told; i++) {
        row = &stretches->rows[i];
        if (!buffer_add(out, "; ", i == 0 ? 0 : 2) || !(row->to_the_end ? add_rest(out, row, text) : add_stretch_of(out, row, text)) || !add_place(out, row, other))
            return false;
    }
    if (stretches->length == told)
        return true;
    return buffer_add(out, "; and in ", 9) && add_count(out, stretches->length - told, "other stretch", "other stretches") && buffer_add(out, ", in all ", 9) &&
           add_count(out, stretches->words, "word", "words");
}

static bool add_details(struct buffer *out, const struct finding *finding) {
    switch (finding->verdict) {
    case LAYOUT: return add_number(out, ": line ", finding->line) && buffer_print(out, " of the digest %s", finding->why == NULL ? "" : finding->why);
    case MISSING: return buffer_add(out, ": ", 2) && add_stretches(out, &finding->missing, "notes", "digest");
    case ADDED: return buffer_add(out, ": ", 2) && add_stretches(out, &finding->added, "digest", "notes");
    case BOTH:
        return buffer_add(out, ": missing ", 10) && add_stretches(out, &finding->missing, "notes", "digest") && buffer_add(out, "; added ", 8) &&
               add_stretches(out, &finding->added, "digest", "notes");
    case UNJUDGED: return buffer_print(out, ": %s", finding->why == NULL ? "there is no memory" : finding->why);
    default: return true;
    }
}

bool add_line(struct buffer *out, const struct audited *row) {
    const char *name = row->pair->notes != NULL ? row->pair->notes : row->pair->digest;
    return add_visible_line(out, name, strlen(name)) && buffer_print(out, ": %s", VERDICT_WORDS[row->finding.verdict]) && add_details(out, &row->finding) &&
           buffer_add(out, "\n", 1);
}

bool add_summary(struct buffer *out, const struct audit *audit) {
    enum verdict verdict;
    const char *before = ": ";
    if (!add_count(out, audit->pairs.length, "pair", "pairs"))
        return false;
    for (verdict = CARRIED; verdict < VERDICTS; verdict++)
        if (audit->counts[verdict] > 0) {
            if (!add_number(out, before, audit->counts[verdict]) || !buffer_print(out, " %s", VERDICT_WORDS[verdict]))
                return false;
            before = ", ";
        }
    return buffer_add(out, "\n", 1);
}
