/* Why a line of the digest ends where it does, in words: the library's reason, with its very numbers. */
#include "reasons.h"

#include "numbers.h"
#include "say.h"

#include <inttypes.h>

/* The column that the next word would reach is the sum that the fit test compares with the width. */
static char *not_fit(const uint64_t reason[6], const struct options *options) {
    uint64_t word = reason[4], reached = reason[1] + reason[2] + reason[3] + word;
    return words("ends here because the next word, %" PRIu64 " column%s, would reach column %" PRIu64 " of %" PRIu64, word, word == 1 ? "" : "s", reached,
                 width_of(options));
}

static char *chosen(const uint64_t reason[6], const struct options *options) {
    char cost[GROUPED];
    return words("chosen: %" PRIu64 " of %" PRIu64 " columns, cost %s (line %" PRIu64 ", word %" PRIu64 ", change %" PRIu64 ")", reason[1], goal_of(options),
                 in_thousands(reason[5], cost), reason[2], reason[3], reason[4]);
}

char *reason_in_words(const uint64_t reason[6], const struct options *options) {
    switch (reason[0]) {
    case RUDIGNALS_PLAIN_LINE: return words("a plain line, which ends as it does in the notes");
    case RUDIGNALS_BLANK_LINE: return words("a blank line of the notes");
    case RUDIGNALS_NOT_FIT: return not_fit(reason, options);
    case RUDIGNALS_CHOSEN: return chosen(reason, options);
    case RUDIGNALS_FORCED_BEFORE: return words("ends here because the next word fits on no line that leads to it: the break is forced before it");
    case RUDIGNALS_FORCED_AFTER: return words("ends here because its last word fits on no line that leads to it: the break is forced after it, which is the lesser evil");
    default: return words("ends here because its paragraph ends");
    }
}
