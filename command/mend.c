/* Notes mended in memory.
 *
 * What is mended, and how, is rudignals_mend's matter: each line by itself (RULES 14). So notes are cut at line ends for it. A line that is longer
 * than a call takes is cut anywhere; whether it is mended is decided for the whole of it before. */
#include "mend.h"

#include "damage.h"
#include "say.h"

#include <string.h>

/* A character has at most four bytes, and a cut must leave one whole. */
enum { MOST = MOST_PART < 8 ? 8 : MOST_PART };

size_t count_nameless(const uint8_t *bytes, size_t length) {
    size_t count = 0, i;
    for (i = 0; i < length; i++)
        count += bytes[i] >= 0x80 && bytes[i] <= 0x9F;
    return count;
}

/* ---- parts */

/* What a call changed: the places ascend. */
static uint32_t places[MOST];
static uint8_t changed[MOST];

/* Puts the mended part after the copy. There is room for the longest copy and list, so nothing but memory can be missing. */
static bool mend_part(struct buffer *copy, const uint8_t *part, size_t length, size_t *changes) {
    uint64_t answer;
    if (!buffer_room(copy, 2 * length + 1))
        return false;
    answer = rudignals_mend(part, length, copy->bytes + copy->length, copy->room - copy->length, places, MOST, changed, MOST);
    *changes = rudignals_number_of(answer) - length;
    copy->length += rudignals_number_of(answer);
    return true;
}

static size_t lines_changed(const uint8_t *part, size_t changes) {
    size_t lines = 0, i;
    for (i = 0; i < changes; i++)
        lines += i == 0 || memchr(part + places[i - 1], '\n', places[i] - places[i - 1]) != NULL;
    return lines;
}

static bool mend_lines(struct mender *mender, const uint8_t *part, size_t length) {
    size_t changes;
    if (!mend_part(&mender->copy, part, length, &changes))
        return false;
    mender->mended.lines += lines_changed(part, changes);
    mender->mended.bytes += changes;
    mender->mended.nameless += count_nameless(changed, changes);
    return true;
}

/* ---- a line that is longer than a call takes */

/* The byte FF is part of no character: with one before it any part of the line is damaged, and so mended. The two bytes that it becomes are
 * taken away again. */
static bool mend_damaged(struct mender *mender, const uint8_t *part, size_t length) {
    static uint8_t with[MOST];
    size_t at = mender->copy.length, changes;
    with[0] = 0xFF;
    memcpy(with + 1, part, length);
    if (!mend_part(&mender->copy, with, length + 1, &changes))
        return false;
    mender->copy.length -= 2;
    memmove(mender->copy.bytes + at, mender->copy.bytes + at + 2, mender->copy.length - at);
    mender->mended.bytes += changes - 1;
    mender->mended.nameless += count_nameless(changed + 1, changes - 1);
    return true;
}

static bool mend_long_line(struct mender *mender, const uint8_t *line, size_t length) {
    size_t part;
    if (!is_damaged(line, length))
        return buffer_add(&mender->copy, line, length);
    mender->mended.lines++;
    for (; length > 0; line += part, length -= part) {
        part = length < MOST - 1 ? length : MOST - 1;
        if (!mend_damaged(mender, line, part))
            return false;
    }
    return true;
}

/* ---- notes */

static const uint8_t *last_feed(const uint8_t *bytes, size_t length) {
    while (length > 0 && bytes[length - 1] != '\n')
        length--;
    return length == 0 ? NULL : bytes + length - 1;
}

/* Whole lines: as many at a time as a call takes, or one that is longer. */
static bool mend_whole(struct mender *mender, const uint8_t *bytes, size_t length) {
    const uint8_t *feed;
    size_t part;
    for (; length > 0; bytes += part, length -= part) {
        part = length;
        if (length > MOST) {
            feed = last_feed(bytes, MOST);
            if (feed == NULL)
                feed = memchr(bytes + MOST, '\n', length - MOST);
            part = feed == NULL ? length : (size_t)(feed - bytes) + 1;
        }
        if (!(part <= MOST ? mend_lines(mender, bytes, part) : mend_long_line(mender, bytes, part)))
            return false;
    }
    return true;
}

/* What came in before has no line feed, and is not looked at again. */
bool mend_next(struct mender *mender, const uint8_t *bytes, size_t length, bool ended) {
    const uint8_t *feed = last_feed(bytes, length);
    size_t whole = mender->raw.length + (ended ? length : feed == NULL ? 0 : (size_t)(feed - bytes) + 1);
    if (!ended && feed == NULL)
        whole = 0;
    if (mender->taken == mender->copy.length)
        mender->taken = mender->copy.length = 0;
    if (!buffer_add(&mender->raw, bytes, length) || !mend_whole(mender, mender->raw.bytes, whole))
        return false;
    mender->raw.length -= whole;
    if (mender->raw.length > 0)
        memmove(mender->raw.bytes, mender->raw.bytes + whole, mender->raw.length);
    return true;
}

size_t take_mended(struct mender *mender, uint8_t *to, size_t most) {
    size_t length = mender->copy.length - mender->taken;
    if (length > most)
        length = most;
    if (length > 0)
        memcpy(to, mender->copy.bytes + mender->taken, length);
    mender->taken += length;
    return length;
}

void mend_anew(struct mender *mender) {
    mender->raw.length = mender->copy.length = mender->taken = 0;
    mender->mended = (struct mended){0};
}

void free_mender(struct mender *mender) {
    buffer_free(&mender->raw);
    buffer_free(&mender->copy);
    mend_anew(mender);
}

bool mend_notes(struct buffer *notes, struct mended *mended) {
    struct mender mender = {0};
    bool well = mend_whole(&mender, notes->bytes, notes->length);
    *mended = mender.mended;
    if (well) {
        struct buffer before = *notes;
        *notes = mender.copy;
        mender.copy = before;
    }
    free_mender(&mender);
    return well;
}

/* ---- words */

void say_nameless(const char *label, size_t count) {
    if (count > 0)
        say("%s: %zu mended byte%s 80 to 9F, for which ISO 8859-1 has no letter; the notes may be windows-1252", label, count, count == 1 ? " is of" : "s are of");
}

void say_mended(const char *label, const struct mended *mended) {
    if (mended->lines > 0)
        say("%s: %zu line%s mended: %zu byte%s read as ISO 8859-1", label, mended->lines, mended->lines == 1 ? "" : "s", mended->bytes, mended->bytes == 1 ? "" : "s");
    say_nameless(label, mended->nameless);
}
