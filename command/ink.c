/* The words of a text: what is between blanks, the full White_Space set. A byte at which no character begins is part of a word.
 *
 * Of a line that is formatted the prefix is no word: it is before each line of the digest again, however many those are. */
#include "ink.h"

#include "damage.h"

#include <string.h>

/* U+0009 to U+000D, U+0020; U+0085, U+00A0; U+1680, U+2000 to U+200A, U+2028, U+2029, U+202F, U+205F, U+3000. */
static bool blank_of_two(const uint8_t *at) { return at[0] == 0xC2 && (at[1] == 0x85 || at[1] == 0xA0); }

static bool blank_of_three(const uint8_t *at) {
    switch (at[0] << 8 | at[1]) {
    case 0xE19A: return at[2] == 0x80;
    case 0xE280: return (at[2] >= 0x80 && at[2] <= 0x8A) || at[2] == 0xA8 || at[2] == 0xA9 || at[2] == 0xAF;
    case 0xE281: return at[2] == 0x9F;
    case 0xE380: return at[2] == 0x80;
    default: return false;
    }
}

size_t blank_at(const uint8_t *at, const uint8_t *end) {
    if (at == end)
        return 0;
    if (*at < 0x80)
        return *at == ' ' || (*at >= '\t' && *at <= '\r');
    if (end - at >= 2 && blank_of_two(at))
        return 2;
    return end - at >= 3 && blank_of_three(at) ? 3 : 0;
}

static const uint8_t *behind_blanks(const uint8_t *at, const uint8_t *end) {
    size_t blank;
    while ((blank = blank_at(at, end)) > 0)
        at += blank;
    return at;
}

/* No blank begins inside a character, so that going on by one byte is enough. */
static const uint8_t *behind_word(const uint8_t *at, const uint8_t *end) {
    while (at < end && blank_at(at, end) == 0)
        at++;
    return at;
}

static bool all_ascii(const uint8_t *at, const uint8_t *end) {
    while (at < end && *at < 0x80)
        at++;
    return at == end;
}

/* The place after a prefix, or null: it is at the line's start or, unless it is exact, after the blanks there. The line's own blanks
 * may be the prefix's first signs, so each place among them is tried. */
static const uint8_t *behind_prefix(const uint8_t *line, const uint8_t *end, const uint8_t *prefix, size_t length, bool exact) {
    const uint8_t *at = line;
    size_t blank;
    for (;;) {
        if ((size_t)(end - at) >= length && (length == 0 || memcmp(at, prefix, length) == 0))
            return at + length;
        blank = exact ? 0 : blank_at(at, end);
        if (blank == 0)
            return NULL;
        at += blank;
    }
}

/* Where the words of a formatted line begin, or null if the line is plain. */
static const uint8_t *words_of(const struct heads *heads, const uint8_t *line, const uint8_t *end) {
    const uint8_t *at = line;
    if (heads->prefix != NULL) {
        at = behind_prefix(line, end, heads->prefix, heads->prefix_len, heads->exact_prefix);
        if (at == NULL || behind_blanks(at, end) == end)
            return NULL;
    }
    if (heads->skip != NULL && behind_prefix(line, end, heads->skip, heads->skip_len, heads->exact_skip) != NULL)
        return NULL;
    return all_ascii(line, end) || !is_damaged(line, (size_t)(end - line)) ? at : NULL;
}

static void take_line(struct inks *inks) {
    const uint8_t *feed = memchr(inks->next, '\n', (size_t)(inks->end - inks->next)), *words = NULL;
    inks->at = inks->next;
    inks->next = feed == NULL ? inks->end : feed + 1;
    inks->line_end = feed == NULL ? inks->end : feed;
    inks->line++;
    if (feed != NULL && inks->line_end > inks->at && inks->line_end[-1] == '\r')
        inks->line_end--;
    if (behind_blanks(inks->at, inks->line_end) == inks->line_end) {
        inks->at = inks->line_end;
        inks->line_whole = false;
        return;
    }
    if (inks->whole || inks->heads->prefix != NULL)
        words = words_of(inks->heads, inks->at, inks->line_end);
    inks->line_whole = inks->whole && words == NULL;
    inks->at = behind_blanks(words == NULL ? inks->at : words, inks->line_end);
}

struct inks inks_of(const struct heads *heads, const uint8_t *bytes, size_t length, bool whole) {
    static const uint8_t nothing[1];
    struct inks inks = {heads, whole, NULL, NULL, NULL, NULL, 0, false};
    inks.at = inks.line_end = inks.next = bytes == NULL ? nothing : bytes;
    inks.end = inks.next + length;
    return inks;
}

static const uint8_t *before_blanks(const uint8_t *from, const uint8_t *end) {
    const uint8_t *last = from, *at = from;
    while (at < end) {
        at = last = behind_word(at, end);
        at = behind_blanks(at, end);
    }
    return last;
}

bool next_ink(struct inks *inks, struct ink *ink) {
    while (inks->at == inks->line_end) {
        if (inks->next == inks->end)
            return false;
        take_line(inks);
    }
    ink->bytes = inks->at;
    ink->line = inks->line;
    ink->whole = inks->line_whole;
    ink->length = (size_t)((ink->whole ? before_blanks(inks->at, inks->line_end) : behind_word(inks->at, inks->line_end)) - inks->at);
    inks->at = ink->whole ? inks->line_end : behind_blanks(inks->at + ink->length, inks->line_end);
    return true;
}

static bool same_words(const uint8_t *a, const uint8_t *a_end, const uint8_t *b, const uint8_t *b_end) {
    size_t length;
    while (a < a_end && b < b_end) {
        length = (size_t)(behind_word(a, a_end) - a);
        if (length != (size_t)(behind_word(b, b_end) - b) || memcmp(a, b, length) != 0)
            return false;
        a = behind_blanks(a + length, a_end);
        b = behind_blanks(b + length, b_end);
    }
    return a == a_end && b == b_end;
}

bool same_ink(const struct ink *a, const struct ink *b) {
    if (a->whole != b->whole)
        return false;
    if (a->whole)
        return same_words(a->bytes, a->bytes + a->length, b->bytes, b->bytes + b->length);
    return a->length == b->length && memcmp(a->bytes, b->bytes, a->length) == 0;
}
