/* Where notes may be cut: right before and right after a blank line.
 *
 * A blank line is a full boundary (`a-blank-line-is-a-full-boundary` in crates/rudignals/proofs/NothingLost.antt): the lines before it, an empty
 * line and the lines after it, each formatted by itself, are what the whole would have become. A paragraph ends there, and next-mail is
 * true after it as at the start. The theorem speaks of notes in which nothing is refused. What is refused is found by the part too: a line
 * feed ends its line even inside a broken character, so the first damaged character of the whole is that of the first damaged part, and
 * no paragraph reaches over a blank line.
 *
 * Which lines are blank does not depend on the options. Only those of ASCII's blanks alone, an empty one or one of a carriage return among
 * them, are cut at; others, of U+0085 or U+00A0, are not looked for. A last line without a line feed is not cut at either. */
#include "cut.h"

#include <string.h>

static bool is_blank(uint8_t byte) { return byte == ' ' || (byte >= '\t' && byte <= '\r'); }

static bool all_blank(const uint8_t *from, const uint8_t *to) {
    while (from < to && is_blank(*from))
        from++;
    return from == to;
}

/* The place after the line that begins at a place, or 0 if its line feed is not there. */
static size_t line_end(const uint8_t *bytes, size_t length, size_t at) {
    const uint8_t *feed = memchr(bytes + at, '\n', length - at);
    return feed == NULL ? 0 : (size_t)(feed - bytes) + 1;
}

bool parts_notes(const uint8_t *line, size_t length) { return length > 0 && line[length - 1] == '\n' && all_blank(line, line + length); }

static size_t last_cut(const uint8_t *bytes, size_t length, size_t most) {
    size_t cut = 0, at = 0, end;
    while (at <= most && (end = line_end(bytes, length, at)) != 0) {
        if (all_blank(bytes + at, bytes + end))
            cut = end <= most ? end : at;
        at = end;
    }
    return cut;
}

size_t first_part(const uint8_t *bytes, size_t length, bool ended, size_t most) { return ended && length <= most ? length : last_cut(bytes, length, most); }
