/* What the audit finds of a pair of notes and digest. */
#ifndef VERDICT_H
#define VERDICT_H

#include "accept.h"
#include "match.h"

/* The verdicts, worst last where two pairs are compared; each has its name in records and its words for a person (VERDICT_NAMES and
 * VERDICT_WORDS). */
enum verdict { CARRIED, LAYOUT, MISSING, ADDED, BOTH, NO_DIGEST, NO_NOTES, UNJUDGED, VERDICTS };
extern const char *const VERDICT_NAMES[VERDICTS], *const VERDICT_WORDS[VERDICTS];

enum { QUOTED = 48 };

/* Lines of one text, from 1, with so many words that the other has not. Every line between them that has words lacks some, too. */
struct stretch {
    size_t first, last;
    size_t words;
    size_t behind;          /* the line of the other text that they should stand behind, or 0: at its start */
    uint8_t quoted[QUOTED]; /* the first of these words, or its beginning */
    size_t quoted_len;
    bool quoted_whole;
    bool to_the_end;        /* all from its first word on is such */
    bool whole_lines;       /* that word is the first of its line */
};

struct stretches {
    struct stretch *rows;
    size_t length;
    size_t words;
};

struct finding {
    enum verdict verdict;
    size_t line;  /* LAYOUT: the first line of the digest that is not as the rules have it, from 1 */
    char *why;    /* LAYOUT, UNJUDGED: in words */
    struct stretches missing, added;
};

/* The options as the audit needs them. */
struct terms {
    struct bytes block;
    struct heads heads;
    bool keep;
};

/* Compares the two texts of a pair. Needs no state: several threads may call it at once. */
struct finding find(const struct terms *terms, struct bytes notes, struct bytes digest);
/* What could not be judged, for a reason in words, which is copied. */
struct finding not_judged(const char *why);
void free_finding(struct finding *finding);

#endif
