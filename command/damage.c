/* Where text is damaged.
 *
 * The library is asked for the length of a digest in which every line is left as it is: it refuses damage. A call looks at no more than its
 * limit; a character that is cut off there is looked at again. */
#include "damage.h"

#include "rudignals.h"

#include <string.h>

size_t first_damage(const uint8_t *bytes, size_t length, size_t at) {
    uint8_t block[RUDIGNALS_MOST_BLOCK];
    size_t block_len = rudignals_put_prefix(block, 0, RUDIGNALS_TAG_SKIP, NULL, 0), part, place;
    uint64_t answer;
    while (at < length) {
        part = length - at < RUDIGNALS_MOST_NOTES ? length - at : RUDIGNALS_MOST_NOTES;
        answer = rudignals_measure(block, block_len, bytes + at, part);
        place = rudignals_number_of(answer);
        if (rudignals_code_of(answer) != RUDIGNALS_TEXT)
            at += part;
        else if (at + part == length || place + 4 <= part)
            return at + place;
        else
            at += place;
    }
    return length;
}

size_t damaged_lines(const uint8_t *bytes, size_t from, size_t to) {
    size_t count = 0, at = first_damage(bytes, to, from);
    const uint8_t *feed;
    for (; at < to; count++) {
        feed = memchr(bytes + at, '\n', to - at);
        at = feed == NULL ? to : first_damage(bytes, to, (size_t)(feed - bytes) + 1);
    }
    return count;
}

bool is_damaged(const uint8_t *bytes, size_t length) { return first_damage(bytes, length, 0) < length; }
