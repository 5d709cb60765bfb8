/* What the audit finds of a pair: one verdict, and what it rests on.
 *
 * Whether all words are there is decided on words between blanks, those of damaged lines too. Only where these differ damaged lines and
 * plain lines count as one word each, on both sides: then a line of them is there or it is not. */
#include "verdict.h"

#include "buffer.h"
#include "damage.h"
#include "limits.h"
#include "lines.h"

#include <stdlib.h>
#include <string.h>

const char *const VERDICT_NAMES[VERDICTS] = {
    [CARRIED] = "carried", [LAYOUT] = "layout",       [MISSING] = "missing",   [ADDED] = "added",
    [BOTH] = "both",       [NO_DIGEST] = "no-digest", [NO_NOTES] = "no-notes", [UNJUDGED] = "unjudged",
};

const char *const VERDICT_WORDS[VERDICTS] = {
    [CARRIED] = "carried",
    [LAYOUT] = "laid out otherwise",
    [MISSING] = "text missing",
    [ADDED] = "text added",
    [BOTH] = "text missing and text added",
    [NO_DIGEST] = "no digest",
    [NO_NOTES] = "no notes",
    [UNJUDGED] = "could not be judged",
};

/* ---- words */

PRINTS(1, 2) static char *phrase(const char *format, ...) {
    struct buffer text = {0};
    va_list values;
    bool well;
    va_start(values, format);
    well = buffer_fill(&text, format, values) && buffer_add(&text, "", 1);
    va_end(values);
    if (!well)
        buffer_free(&text);
    return (char *)text.bytes;
}

struct finding not_judged(const char *why) {
    struct finding finding = {UNJUDGED, 0, phrase("%s", why), {NULL, 0, 0}, {NULL, 0, 0}};
    return finding;
}

/* ---- stretches of lines */

static bool add_stretch(struct stretches *stretches, const struct stretch *stretch) {
    size_t room = stretches->length;
    struct stretch *wider;
    if ((room & (room - 1)) == 0) { /* it is full at each power of two */
        wider = realloc(stretches->rows, (room == 0 ? 1 : 2 * room) * sizeof *wider);
        if (wider == NULL)
            return false;
        stretches->rows = wider;
    }
    stretches->rows[stretches->length++] = *stretch;
    return true;
}

/* One side of a matching, word by word: which words of `mine` have no match, by lines. Two such lines belong together if no line between
 * them stands whole. */
struct gathering {
    const struct sequence *mine, *other;
    size_t first_line; /* the line of the last word that agreed before both sequences, or 0 */
    size_t other_line;
};

static bool joins(const struct stretches *stretches, size_t last_line_with_words) {
    return stretches->length > 0 && stretches->rows[stretches->length - 1].last == last_line_with_words;
}

/* The line with the words from i on: how many there are, and how many have no match. */
struct line_words {
    size_t count, lost, first_lost;
};

static struct line_words line_from(const struct sequence *mine, size_t i) {
    struct line_words words = {0, 0, 0};
    size_t at;
    for (at = i; at < mine->length && mine->inks[at].line == mine->inks[i].line; at++) {
        if (!mine->matched[at] && words.lost++ == 0)
            words.first_lost = at;
        words.count++;
    }
    return words;
}

/* How many words of the other side are matched up to here, so that the next one's place is known. */
static size_t matched_before(const struct sequence *sequence, size_t from, size_t to) {
    size_t count = 0;
    for (; from < to; from++)
        count += sequence->matched[from];
    return count;
}

static size_t go_matched(const struct sequence *other, size_t at, size_t count) {
    while (count > 0 && at < other->length)
        count -= other->matched[at++];
    return at;
}

static size_t tail_lost(const struct sequence *mine) {
    size_t at = mine->length;
    while (at > 0 && !mine->matched[at - 1])
        at--;
    return at;
}

/* Cut where a character begins. */
static void quote(struct stretch *stretch, const struct ink *ink) {
    size_t length = ink->length < QUOTED ? ink->length : QUOTED;
    while (length < ink->length && length > 0 && (ink->bytes[length] & 0xC0u) == 0x80u)
        length--;
    memcpy(stretch->quoted, ink->bytes, length);
    stretch->quoted_len = length;
    stretch->quoted_whole = length == ink->length;
}

static bool gather(struct stretches *stretches, const struct gathering *g) {
    size_t i = 0, other = 0, counted = 0, last_line = g->first_line, tail = tail_lost(g->mine);
    struct line_words words;
    struct stretch *row, fresh;
    for (; i < g->mine->length; i += words.count) {
        words = line_from(g->mine, i);
        if (words.lost > 0 && joins(stretches, last_line)) {
            row = &stretches->rows[stretches->length - 1];
            row->last = g->mine->inks[i].line;
            row->words += words.lost;
        } else if (words.lost > 0) {
            other = go_matched(g->other, other, matched_before(g->mine, counted, words.first_lost));
            counted = words.first_lost;
            fresh = (struct stretch){.first = g->mine->inks[i].line, .last = g->mine->inks[i].line, .words = words.lost};
            fresh.behind = other == 0 ? g->other_line : g->other->inks[other - 1].line;
            fresh.to_the_end = words.first_lost >= tail;
            fresh.whole_lines = words.first_lost == i && g->mine->inks[i].line != g->first_line;
            quote(&fresh, &g->mine->inks[words.first_lost]);
            if (!add_stretch(stretches, &fresh))
                return false;
        }
        stretches->words += words.lost;
        last_line = g->mine->inks[i].line;
    }
    return true;
}

/* ---- why a digest with all words is not accepted */

struct text_line {
    const uint8_t *at;
    size_t length; /* with its line feed */
    bool fed;
};

static bool find_line(struct text_line *found, struct bytes text, uint64_t number) {
    struct lines lines = read_lines(text.at, text.length);
    while (next_line(&lines))
        if (lines.number == number + 1) {
            *found = (struct text_line){lines.line, lines.length, lines.fed};
            return true;
        }
    return false;
}

static size_t ink_length(const uint8_t *line, size_t length) {
    size_t last = 0, at = 0, blank;
    while (at < length) {
        blank = blank_at(line + at, line + length);
        at += blank == 0 ? 1 : blank;
        if (blank == 0)
            last = at;
    }
    return last;
}

static size_t indent_length(const uint8_t *line, size_t length) {
    size_t at = 0, blank;
    while ((blank = blank_at(line + at, line + length)) > 0)
        at += blank;
    return at;
}

/* Would the digest be right up to after the line, if the line were another? Tried with the digest up to there. */
static bool would_go_on(const struct terms *terms, struct bytes notes, struct bytes digest, uint64_t number, const struct text_line *line, const struct bytes *parts, size_t count) {
    size_t before = (size_t)(line->at - digest.at), length = before, i;
    uint8_t *tried;
    struct judgement judgement;
    for (i = 0; i < count; i++)
        length += parts[i].length;
    tried = malloc(length + 1);
    if (tried == NULL)
        return false;
    if (before > 0)
        memcpy(tried, digest.at, before);
    for (i = 0, length = before; i < count; length += parts[i++].length)
        if (parts[i].length > 0)
            memcpy(tried + length, parts[i].at, parts[i].length);
    judgement = judge(terms->block, notes, (struct bytes){tried, length});
    free(tried);
    return judgement.acceptance == ACCEPTED || (judgement.acceptance == NOT_ACCEPTED && judgement.line > number);
}

static const uint8_t FEED[] = "\n";

static bool right_without_tail(const struct terms *terms, struct bytes notes, struct bytes digest, uint64_t number, const struct text_line *line, size_t kept) {
    struct bytes parts[] = {{line->at, kept}, {FEED, 1}};
    return would_go_on(terms, notes, digest, number, line, parts, 2);
}

/* The line of the notes that has the first word of a line of the digest, from 1; 0 if that line has no word. Both have the same words. */
static size_t line_of_words(const struct terms *terms, struct bytes notes, struct bytes digest, uint64_t number) {
    struct inks of_notes = inks_of(&terms->heads, notes.at, notes.length, false), of_digest = inks_of(&terms->heads, digest.at, digest.length, false);
    struct ink a, b;
    while (next_ink(&of_notes, &a) && next_ink(&of_digest, &b))
        if (b.line > number)
            return b.line == number + 1 ? a.line : 0;
    return 0;
}

/* Tried with no indent and with those of the lines about the one in the notes. */
static bool right_with_indent(const struct terms *terms, struct bytes notes, struct bytes digest, uint64_t number, const struct text_line *line) {
    size_t own = indent_length(line->at, line->length - 1), there = line_of_words(terms, notes, digest, number), near;
    struct bytes parts[] = {{NULL, 0}, {line->at + own, ink_length(line->at, line->length) - own}, {FEED, 1}};
    struct text_line noted;
    if (there == 0)
        return false;
    if (would_go_on(terms, notes, digest, number, line, parts, 3))
        return true;
    for (near = there < 2 ? 0 : there - 2; near <= there + 1; near++) {
        if (!find_line(&noted, notes, near))
            break;
        parts[0] = (struct bytes){noted.at, indent_length(noted.at, noted.length - noted.fed)};
        if (would_go_on(terms, notes, digest, number, line, parts, 3))
            return true;
    }
    return false;
}

static char *why_not_accepted(const struct terms *terms, struct bytes notes, struct bytes digest, uint64_t number) {
    struct text_line line;
    size_t text, ink;
    if (!find_line(&line, digest, number))
        return phrase("is missing: a blank line of the notes is not there");
    if (!line.fed)
        return phrase("is not ended by a line feed");
    text = line.length - 1;
    ink = ink_length(line.at, text);
    if (text > 0 && line.at[text - 1] == '\r' && right_without_tail(terms, notes, digest, number, &line, text - 1))
        return phrase("ends in CR LF");
    if (ink == 0 && text == 0)
        return phrase("is empty, and the notes have no blank line there");
    if (ink < text && right_without_tail(terms, notes, digest, number, &line, ink))
        return phrase(ink == 0 ? "has blanks where an empty line is due" : "has blanks at its end");
    if (is_damaged(line.at, text))
        return phrase("has a damaged character and is not a whole line of the notes: a damaged line was broken or joined");
    if (right_with_indent(terms, notes, digest, number, &line))
        return phrase("has another indent");
    return phrase("does not go on as the rules have it: a blank line is missing, or a damaged or plain line was broken or joined");
}

/* ---- the verdict */

static struct finding layout(const struct terms *terms, struct bytes notes, struct bytes digest, uint64_t line) {
    struct finding finding = {LAYOUT, (size_t)line + 1, why_not_accepted(terms, notes, digest, line), {NULL, 0, 0}, {NULL, 0, 0}};
    return finding;
}

static struct finding differing(const struct terms *terms, struct bytes notes, struct bytes digest) {
    struct finding finding = {BOTH, 0, NULL, {NULL, 0, 0}, {NULL, 0, 0}};
    struct matching m;
    bool well = match(&m, inks_of(&terms->heads, notes.at, notes.length, true), inks_of(&terms->heads, digest.at, digest.length, true));
    if (well) {
        struct gathering lost = {&m.left, &m.right, m.before == 0 ? 0 : m.last[0].line, m.before == 0 ? 0 : m.last[1].line};
        struct gathering more = {&m.right, &m.left, m.before == 0 ? 0 : m.last[1].line, m.before == 0 ? 0 : m.last[0].line};
        well = gather(&finding.missing, &lost) && gather(&finding.added, &more);
        finding.verdict = finding.added.words == 0 ? MISSING : finding.missing.words == 0 ? ADDED : BOTH;
    }
    free_matching(&m);
    if (well)
        return finding;
    free_finding(&finding);
    return not_judged("there is no memory to compare it");
}

/* Notes with a damaged character are refused unless keep is on. */
static bool refused_for_damage(const struct terms *terms, struct bytes notes, unsigned long *line) {
    struct lines lines = read_lines(notes.at, notes.length);
    if (terms->keep)
        return false;
    while (next_line(&lines))
        if (is_damaged(lines.line, lines.length - lines.fed)) {
            *line = lines.number;
            return true;
        }
    return false;
}

static struct finding unjudged(const struct judgement *judgement, struct bytes notes) {
    struct finding finding = not_judged("");
    unsigned long line = 1 + feeds(notes.at, judgement->place);
    free(finding.why);
    switch (judgement->code) {
    case RUDIGNALS_LONG: finding.why = phrase("line %lu of the notes begins a paragraph of more than %u bytes", line, (unsigned)MOST_LARGE); break;
    case RUDIGNALS_LONG_DIGEST: finding.why = phrase("line %lu of the notes begins a paragraph whose digest has more than %u bytes", line, (unsigned)MOST_LARGE); break;
    case RUDIGNALS_WORK_ROOM: finding.why = phrase("there is no memory to check it"); break;
    default: finding.why = phrase("the library refuses it with code %u", (unsigned)judgement->code);
    }
    return finding;
}

struct finding find(const struct terms *terms, struct bytes notes, struct bytes digest) {
    struct judgement judgement;
    unsigned long line;
    struct finding refused;
    if (refused_for_damage(terms, notes, &line)) {
        refused = not_judged("");
        free(refused.why);
        refused.why = phrase("line %lu of the notes has a damaged character, and --no-keep is given", line);
        return refused;
    }
    judgement = judge(terms->block, notes, digest);
    if (judgement.acceptance == ACCEPTED)
        return (struct finding){CARRIED, 0, NULL, {NULL, 0, 0}, {NULL, 0, 0}};
    if (!same_words_throughout(inks_of(&terms->heads, notes.at, notes.length, false), inks_of(&terms->heads, digest.at, digest.length, false)))
        return differing(terms, notes, digest);
    return judgement.acceptance == NOT_ACCEPTED ? layout(terms, notes, digest, judgement.line) : unjudged(&judgement, notes);
}

void free_finding(struct finding *finding) {
    free(finding->why);
    free(finding->missing.rows);
    free(finding->added.rows);
    *finding = (struct finding){CARRIED, 0, NULL, {NULL, 0, 0}, {NULL, 0, 0}};
}
