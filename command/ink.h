/* The words of a text, line by line, as the audit compares them. */
#ifndef INK_H
#define INK_H

#include <stdbool.h>
#include <stddef.h>
#include <stdint.h>

/* What the options say of a line's first signs: which lines are formatted, and what is before their words. Null is not given. */
struct heads {
    const uint8_t *prefix, *skip;
    size_t prefix_len, skip_len;
    bool exact_prefix, exact_skip;
};

/* A word, or a line that is taken whole; the line is counted from 1. Of a whole line the blanks at both ends are left out. */
struct ink {
    const uint8_t *bytes;
    size_t length;
    size_t line;
    bool whole;
};

/* The words of a text one after the other. With `whole` lines that are not formatted, the damaged ones and the plain ones, are taken as one
 * word each. */
struct inks {
    const struct heads *heads;
    bool whole;
    const uint8_t *at, *line_end, *next, *end;
    size_t line;
    bool line_whole; /* what is left of the line is to be taken as one */
};

struct inks inks_of(const struct heads *heads, const uint8_t *bytes, size_t length, bool whole);
/* Answers false at the end of the text. */
bool next_ink(struct inks *inks, struct ink *ink);
/* Two words with the same bytes; two whole lines with the same words. */
bool same_ink(const struct ink *a, const struct ink *b);

/* How many bytes the blank (White_Space) at a place takes; 0 if there is none. */
size_t blank_at(const uint8_t *at, const uint8_t *end);

#endif
