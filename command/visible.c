/* Bytes as a terminal may be given them. */
#include "visible.h"

/* RFC 3629: the bytes that a first one asks for, the least character of such a length, and no surrogate. */
size_t character_at(const uint8_t *bytes, size_t length, uint32_t *character) {
    static const uint32_t LEAST[] = {0, 0, 0x80, 0x800, 0x10000};
    size_t wanted, i;
    if (length == 0)
        return 0;
    wanted = bytes[0] < 0x80 ? 1 : bytes[0] < 0xC2 ? 0 : bytes[0] < 0xE0 ? 2 : bytes[0] < 0xF0 ? 3 : bytes[0] < 0xF5 ? 4 : 0;
    if (wanted == 0 || wanted > length)
        return 0;
    *character = wanted == 1 ? bytes[0] : bytes[0] & (0x7Fu >> wanted);
    for (i = 1; i < wanted; i++) {
        if ((bytes[i] & 0xC0u) != 0x80u)
            return 0;
        *character = *character << 6 | (bytes[i] & 0x3Fu);
    }
    return *character < LEAST[wanted] || (*character >= 0xD800 && *character <= 0xDFFF) || *character > 0x10FFFF ? 0 : wanted;
}

/* Controls of two bytes, directions, separators, the mark of byte order, annotations and tags. */
bool acts(uint32_t c) {
    return (c >= 0x80 && c <= 0x9F) || c == 0x61C || c == 0x180E || (c >= 0x200E && c <= 0x200F) || (c >= 0x2028 && c <= 0x202E) ||
           (c >= 0x2060 && c <= 0x206F) || c == 0xFEFF || (c >= 0xFFF9 && c <= 0xFFFB) || (c >= 0xE0000 && c <= 0xE0FFF);
}

/* As it is, if it is no control character of ASCII. */
static bool is_ink(uint8_t byte) { return byte >= ' ' && byte < 127; }

static bool add_one(struct buffer *buffer, const uint8_t *bytes, size_t length, size_t *taken) {
    uint32_t character = 0;
    *taken = character_at(bytes, length, &character);
    if (*taken == 0) {
        *taken = 1;
        return buffer_print(buffer, "<%02X>", (unsigned)bytes[0]);
    }
    if (character < ' ' || character == 127)
        return buffer_print(buffer, "^%c", (int)(character ^ 64));
    return acts(character) ? buffer_print(buffer, "<U+%04lX>", (unsigned long)character) : buffer_add(buffer, bytes, *taken);
}

static bool stays(const uint8_t *bytes, size_t length, bool one_line) {
    if (is_ink(bytes[0]))
        return true;
    return !one_line && (bytes[0] == '\n' || bytes[0] == '\t' || (bytes[0] == '\r' && length > 1 && bytes[1] == '\n'));
}

static bool add(struct buffer *buffer, const uint8_t *bytes, size_t length, bool one_line) {
    size_t at = 0, run, taken;
    while (at < length) {
        for (run = 0; at + run < length && stays(bytes + at + run, length - at - run, one_line);)
            run++;
        if (!buffer_add(buffer, bytes + at, run))
            return false;
        at += run;
        if (at < length) {
            if (!add_one(buffer, bytes + at, length - at, &taken))
                return false;
            at += taken;
        }
    }
    return true;
}

bool add_visible(struct buffer *buffer, const void *bytes, size_t length) { return add(buffer, bytes, length, false); }

bool add_visible_line(struct buffer *buffer, const void *bytes, size_t length) { return add(buffer, bytes, length, true); }
