/* A file of any length, formatted part by part in memory. */
#include "digest.h"

#include "say.h"

#include <errno.h>

/* Measures the part, makes room for just that much and writes it after the digest so far. Where that room is not to be had the part is
 * refused for it. */
static uint64_t ask(struct digest *digest, const struct options *options, const struct part *part) {
    uint64_t answer = measure_part(options, false, part), dashes = 0;
    size_t needed = rudignals_number_of(answer);
    if (rudignals_code_of(answer) != RUDIGNALS_DONE || needed == 0 || digest->refusal.code != RUDIGNALS_DONE)
        return answer;
    if (!buffer_room(&digest->text, needed))
        return (uint64_t)RUDIGNALS_ROOM << 32;
    return write_part(options, false, part, digest->text.bytes + digest->text.length, needed, &dashes);
}

/* Once something is refused no more is written, but a lower code may still come. */
static void add_part(struct digest *digest, const struct options *options, const struct part *part) {
    uint64_t answer = ask(digest, options, part);
    if (rudignals_code_of(answer) != RUDIGNALS_DONE)
        refuse_part(&digest->refusal, part, answer);
    else if (digest->refusal.code == RUDIGNALS_DONE)
        digest->text.length += rudignals_number_of(answer);
}

/* After what has no cut no lower code can follow. */
bool make_digest(struct digest *digest, const struct options *options, struct window *window) {
    struct part part = {0};
    enum found found;
    digest->text.length = 0;
    digest->refusal.code = RUDIGNALS_DONE;
    while ((found = next_part(window, options, &part)) == PART)
        add_part(digest, options, &part);
    if (found == UNCUT)
        refuse_uncut(&digest->refusal, &part);
    return found != UNREAD;
}

/* The same of notes in memory; there is nothing to read. */
bool digest_bytes(struct digest *digest, const struct options *options, struct bytes notes) {
    struct part part = {0};
    enum found found;
    digest->text.length = 0;
    digest->refusal.code = RUDIGNALS_DONE;
    while ((found = next_part_of(&own_work, block_of(options), notes, MOST_PART, &part)) == PART)
        add_part(digest, options, &part);
    if (found == UNCUT)
        refuse_uncut(&digest->refusal, &part);
    return digest->refusal.code == RUDIGNALS_DONE;
}

static bool read_digest(const struct options *options, const char *name, struct window *window, struct digest *digest) {
    bool whole;
    int reason;
    window->mends = options->value[SALVAGE] != NULL;
    if (!open_window(window, name))
        return false;
    whole = make_digest(digest, options, window);
    reason = errno; /* closing may put another in its place */
    close_window(window);
    errno = reason;
    return whole;
}

enum outcome digest_file(const struct options *options, const char *name, struct window *window, struct digest *digest) {
    if (!read_digest(options, name, window, digest)) {
        say_failure(label_of(name), errno);
        return NOT_READ;
    }
    if (digest->refusal.code != RUDIGNALS_DONE) {
        say_refusal(label_of(name), &digest->refusal);
        return REFUSED;
    }
    return MADE;
}
