/* The longest matching of two sequences of words. */
#ifndef MATCH_H
#define MATCH_H

#include "ink.h"

/* A sequence of words, each by a number that equal words share; and for each whether the other sequence has it, too. */
struct sequence {
    struct ink *inks;
    uint32_t *numbers;
    bool *matched;
    size_t length, room;
};

struct matching {
    size_t before; /* so many words agree from the front, and are in neither sequence */
    struct ink last[2]; /* the last of them in each text, if there is one */
    struct sequence left, right; /* what is behind them */
    size_t missing, added; /* how many of the left and of the right have no match */
};

/* Compares the words of two texts. Words are matched from the front as far as they agree, what is after that by a longest common
 * subsequence. Answers false without memory. */
bool match(struct matching *matching, struct inks left, struct inks right);
void free_matching(struct matching *matching);
/* Do two texts have the same words in the same order? */
bool same_words_throughout(struct inks left, struct inks right);

#endif
