/* Next-mail: true at the start and after a blank line, false after a plain line, and after a paragraph whether that was mail.
 *
 * It matters where the flag mail is set; where it is false no paragraph is mail, and what follows is what it is without the flag. So notes may
 * be cut there too, up to the next blank line. */
#include "nextmail.h"

#include <string.h>

/* The value of a field, or null. */
static const uint8_t *field(struct bytes block, uint8_t tag, size_t *length) {
    size_t at = 0;
    while (at + 3 <= block.length) {
        *length = (size_t)block.at[at + 1] << 8 | block.at[at + 2];
        if (block.at[at] == tag)
            return block.at + at + 3;
        at += 3 + *length;
    }
    return NULL;
}

static unsigned flags_of(struct bytes block) {
    size_t length;
    const uint8_t *value = field(block, RUDIGNALS_TAG_FLAGS, &length);
    return value == NULL ? 0 : (unsigned)value[0] << 8 | value[1];
}

/* With a prefix that is not empty no indent ends at 0. */
static bool has_prefix(struct bytes block) {
    size_t length;
    return field(block, RUDIGNALS_TAG_PREFIX, &length) != NULL && length > 0;
}

bool asks_for_mail(struct bytes block) { return (flags_of(block) & RUDIGNALS_MAIL) != 0; }
bool keeps_damage(struct bytes block) { return (flags_of(block) & RUDIGNALS_KEEP) != 0; }

/* The flags are the block's first field. */
struct bytes without_mail(struct bytes block, uint8_t room[RUDIGNALS_MOST_BLOCK]) {
    if (!asks_for_mail(block))
        return block;
    memcpy(room, block.at, block.length);
    rudignals_put_number(room, 0, RUDIGNALS_TAG_FLAGS, flags_of(block) & ~(unsigned)RUDIGNALS_MAIL);
    return (struct bytes){room, block.length};
}

bool is_header(struct bytes paragraph) {
    size_t i;
    if (paragraph.length >= 5 && memcmp(paragraph.at, "From ", 5) == 0)
        return true;
    for (i = 0; i < paragraph.length && paragraph.at[i] >= 33 && paragraph.at[i] <= 126 && paragraph.at[i] != ':';)
        i++;
    return i > 0 && i < paragraph.length && paragraph.at[i] == ':';
}

bool next_mail(struct bytes block, bool before, uint64_t kind, struct bytes piece) {
    if (kind == RUDIGNALS_BLANK_LINE || kind == RUDIGNALS_PLAIN_LINE)
        return kind == RUDIGNALS_BLANK_LINE;
    return before && !has_prefix(block) && is_header(piece);
}
