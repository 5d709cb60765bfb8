/* Text as JSON has it (RFC 8259). */
#include "json.h"

#include "visible.h"

#include <string.h>

/* What must be escaped, and what would act where it is shown. */
static bool add_character(struct buffer *buffer, uint32_t character, const uint8_t *bytes, size_t length) {
    if (character == '"' || character == '\\')
        return buffer_print(buffer, "\\%c", (char)character);
    if (character >= ' ' && character != 0x7F && !acts(character))
        return buffer_add(buffer, bytes, length);
    if (character < 0x10000)
        return buffer_print(buffer, "\\u%04X", (unsigned)character);
    return buffer_print(buffer, "\\u%04X\\u%04X", 0xD7C0 + (unsigned)(character >> 10), 0xDC00 + (unsigned)(character & 0x3FF));
}

/* Answers false also where a byte is part of no character and none is to stand for it. */
static bool add_string(struct buffer *buffer, const uint8_t *bytes, size_t length, const char *stand_in) {
    size_t at = 0, taken;
    uint32_t character;
    bool well = buffer_add(buffer, "\"", 1);
    while (well && at < length) {
        taken = character_at(bytes + at, length - at, &character);
        if (taken > 0)
            well = add_character(buffer, character, bytes + at, taken);
        else
            well = stand_in != NULL && buffer_print(buffer, "%s", stand_in);
        at += taken > 0 ? taken : 1;
    }
    return well && buffer_add(buffer, "\"", 1);
}

static bool is_text(const uint8_t *bytes, size_t length) {
    size_t at = 0, taken = 1;
    uint32_t character;
    for (; at < length && taken > 0; at += taken)
        taken = character_at(bytes + at, length - at, &character);
    return taken > 0;
}

bool add_json_text(struct buffer *buffer, const char *key, const void *bytes, size_t length) {
    const uint8_t *byte = bytes, *end = byte + length;
    bool well;
    if (is_text(bytes, length))
        return buffer_print(buffer, "\"%s\":", key) && add_string(buffer, bytes, length, NULL);
    well = buffer_print(buffer, "\"%s\":null,\"%s-hex\":\"", key, key);
    for (; well && byte < end; byte++)
        well = buffer_print(buffer, "%02X", (unsigned)*byte);
    return well && buffer_add(buffer, "\"", 1);
}

bool add_json_words(struct buffer *buffer, const char *text) { return add_string(buffer, (const uint8_t *)text, strlen(text), "\xEF\xBF\xBD"); }
