/* A file of any length in two passes. */
#include "passes.h"

#include "say.h"

#include <errno.h>
#include <string.h>

/* What is known of a part: its length, that of its digest, and a sum by which another part is told from it. */
struct known {
    size_t part, digest;
    uint64_t sum;
};

/* In the manner of Fowler, Noll and Vo, eight bytes at a time. */
#define BASIS 14695981039346656037u

static uint64_t summed(uint64_t sum, uint64_t word) {
    sum = (sum ^ word) * 1099511628211u;
    return sum ^ sum >> 32;
}

/* Four sums side by side, of which none waits for another, and one of them all. */
#define SUMS 4

static void sum_words(uint64_t sums[SUMS], const uint64_t words[SUMS]) {
    int i;
    for (i = 0; i < SUMS; i++)
        sums[i] = summed(sums[i], words[i]);
}

static uint64_t sum_of(const uint8_t *bytes, size_t length) {
    uint64_t sums[SUMS] = {BASIS, BASIS, BASIS, BASIS}, words[SUMS], sum = BASIS + length;
    int i;
    for (; length >= sizeof words; bytes += sizeof words, length -= sizeof words) {
        memcpy(words, bytes, sizeof words);
        sum_words(sums, words);
    }
    memset(words, 0, sizeof words);
    memcpy(words, bytes, length);
    sum_words(sums, words);
    for (i = 0; i < SUMS; i++)
        sum = summed(sum, sums[i]);
    return sum;
}

static void say_no_memory(const struct passes *passes) { say("%s: no memory for the formatted text", passes->label); }

/* ---- the first */

static bool remember(struct passes *passes, size_t *most, const struct part *part, size_t digest) {
    struct known known = {part->length, digest, sum_of(part->bytes, part->length)};
    *most = digest > *most ? digest : *most;
    return buffer_add(&passes->known, &known, sizeof known);
}

/* Once something is refused no more is remembered, but a lower code may still come; not after what has no cut. */
static bool measure_parts(struct passes *passes, struct refusal *refusal, size_t *most) {
    struct part part = {0};
    enum found found;
    uint64_t answer;
    while ((found = next_part(&passes->window, passes->options, &part)) == PART) {
        answer = measure_part(passes->options, passes->mail, &part);
        if (rudignals_code_of(answer) != RUDIGNALS_DONE)
            refuse_part(refusal, &part, answer);
        else if (!remember(passes, most, &part, rudignals_number_of(answer)))
            return false;
    }
    if (found == UNCUT)
        refuse_uncut(refusal, &part);
    return found != UNREAD;
}

static bool measured(struct passes *passes) {
    struct refusal refusal = {0};
    size_t most = 0;
    passes->known.length = passes->room.length = 0;
    keep_if_needed(&passes->window, &passes->kept);
    if (!measure_parts(passes, &refusal, &most)) {
        say_failure(passes->label, errno);
        return false;
    }
    if (refusal.code != RUDIGNALS_DONE) {
        say_refusal(passes->label, &refusal);
        return false;
    }
    if (!buffer_room(&passes->room, most + 1)) {
        say_no_memory(passes);
        return false;
    }
    return true;
}

bool measure_file(struct passes *passes, const struct options *options, const char *name) {
    bool well;
    passes->options = options;
    passes->label = label_of(name);
    passes->window.mends = options->value[SALVAGE] != NULL;
    if (!open_window(&passes->window, name)) {
        say_failure(passes->label, errno);
        return false;
    }
    well = measured(passes);
    if (!well)
        close_window(&passes->window);
    return well;
}

/* ---- the second */

enum taken not_as_before(const struct passes *passes) {
    say("%s: was changed while it was read; what was written of it is not whole", passes->label);
    return BROKEN;
}

bool index_measured(struct passes *passes, const struct part *part, size_t length, struct index *index) {
    uint64_t answer = index_part(passes->options, part, passes->room.bytes, length, index);
    if (answer == length)
        return true;
    if (rudignals_code_of(answer) == RUDIGNALS_INDEX_FULL || rudignals_code_of(answer) == RUDIGNALS_WORK_ROOM)
        say("%s: no memory for the index", passes->label);
    else
        not_as_before(passes);
    return false;
}

static size_t parts_known(const struct passes *passes) { return passes->known.length / sizeof(struct known); }

/* A part is looked at before it is written. */
static enum taken take_next(struct passes *passes, const struct part *part, size_t number, take_part *take, void *state) {
    const struct known *known = (const struct known *)(const void *)passes->known.bytes;
    if (number >= parts_known(passes) || known[number].part != part->length || known[number].sum != sum_of(part->bytes, part->length))
        return not_as_before(passes);
    return take(state, passes, part, known[number].digest);
}

bool take_parts(struct passes *passes, take_part *take, void *state) {
    struct part part = {0};
    enum found found = UNREAD;
    enum taken taken = GO_ON;
    size_t number = 0;
    if (rewind_window(&passes->window))
        while (taken == GO_ON && (found = next_part(&passes->window, passes->options, &part)) == PART)
            taken = take_next(passes, &part, number++, take, state);
    if (taken != GO_ON)
        return taken == ENOUGH;
    if (found == UNREAD) {
        say_failure(passes->label, errno);
        return false;
    }
    if (found != NO_PART || number != parts_known(passes))
        return not_as_before(passes) != BROKEN;
    say_mended(passes->label, &passes->window.mender.mended);
    return true;
}

void close_file(struct passes *passes) { close_window(&passes->window); }

void free_passes(struct passes *passes) {
    buffer_free(&passes->kept);
    buffer_free(&passes->known);
    buffer_free(&passes->room);
    free_window(&passes->window);
}
