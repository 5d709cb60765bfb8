/* What the library refuses, in words: what was given, the rule, and what to do. */
#include "refusals.h"

#include "limits.h"
#include "say.h"

#include <inttypes.h>
#include <string.h>

static void say_option(const struct options *options, int option, const char *rule) {
    const char *value = options->value[option];
    say("--%s %s: must be %s", name_of(option), *value == '\0' ? "''" : value, rule);
}

/* A prefix may be long, or of bytes that spoil a terminal, and is not shown. */
static void say_prefix(const struct options *options, int option) {
    size_t length = strlen(options->value[option]);
    if (length > RUDIGNALS_MOST_PREFIX)
        say("--%s: must have at most %u bytes, and has %lu", name_of(option), RUDIGNALS_MOST_PREFIX, (unsigned long)length);
    else
        say("--%s: must be UTF-8", name_of(option));
}

/* Each number is in its range, and width and goal do not go together: goal <= width <= 2 * goal. */
static void say_width_and_goal(const struct options *options) {
    const char *width = options->value['w'], *goal = options->value['g'];
    uint64_t most;
    if (goal == NULL) {
        say_option(options, 'w', "6 to 1000 without --goal");
    } else if (width == NULL) {
        say_option(options, 'g', "3 to 940 without --width");
    } else {
        most = width_of(options);
        say("--goal %s: must be %" PRIu64 " to %" PRIu64 " with --width %s", goal, (most + 1) / 2, most, width);
    }
}

static void say_field(const struct options *options, uint8_t tag) {
    switch (tag) {
    case RUDIGNALS_TAG_WIDTH: say_option(options, 'w', "1 to 1000"); break;
    case RUDIGNALS_TAG_GOAL: say_option(options, 'g', "1 to 1000"); break;
    case RUDIGNALS_TAG_TAB: say_option(options, 'T', "0 to 100"); break;
    case RUDIGNALS_TAG_PREFIX: say_prefix(options, 'p'); break;
    default: say_prefix(options, 'P');
    }
}

/* The empty text is refused for its options alone: so they are known to be right before a file is touched. N is the start of the faulty
 * field, where its tag stands, or the block's length if width and goal do not go together. */
bool options_accepted(const struct options *options) {
    uint64_t answer = rudignals_measure(options->block, options->block_len, NULL, 0);
    uint32_t place = rudignals_number_of(answer);
    if (rudignals_code_of(answer) == RUDIGNALS_DONE)
        return true;
    if (place == options->block_len)
        say_width_and_goal(options);
    else
        say_field(options, options->block[place]);
    return false;
}

#define AT "%s: line %lu, column %lu: "

void say_refusal(const char *name, const struct refusal *at) {
    switch (at->code) {
    case RUDIGNALS_LONG:
        say(AT "a paragraph or a line is too long: nothing in the %u bytes from here on shows where one ends; part it by an empty line", name, at->line, at->column, (unsigned)MOST_LARGE);
        break;
    case RUDIGNALS_TEXT:
        say(AT "byte %02X begins no UTF-8 character; --keep leaves such a line as it is", name, at->line, at->column,
            (unsigned)at->byte);
        break;
    default: say("%s: no memory for the formatted text", name);
    }
}

void say_no_line(const char *name, uint64_t line, uint64_t lines) {
    say("%s: there is no line %" PRIu64 ": the digest has %" PRIu64 " line%s", name, line, lines, lines == 1 ? "" : "s");
}
