/* Lines of bytes in memory, one after the other. */
#include "lines.h"

#include <string.h>

struct lines read_lines(const void *bytes, size_t size) { return (struct lines){.bytes = bytes, .size = size}; }

bool next_line(struct lines *lines) {
    const uint8_t *feed;
    if (lines->next == lines->size)
        return false;
    lines->line = lines->bytes + lines->next;
    feed = memchr(lines->line, '\n', lines->size - lines->next);
    lines->fed = feed != NULL;
    lines->length = lines->fed ? (size_t)(feed - lines->line) + 1 : lines->size - lines->next;
    lines->next += lines->length;
    lines->number++;
    return true;
}

/* Few enough bytes for their count to be a byte, and a number of them that the compiler knows: it counts them all at once. */
#define BLOCK 64

static uint8_t feeds_of_block(const uint8_t *bytes) {
    uint8_t count = 0;
    int i;
    for (i = 0; i < BLOCK; i++)
        count = (uint8_t)(count + (bytes[i] == '\n'));
    return count;
}

unsigned long feeds(const uint8_t *bytes, size_t length) {
    unsigned long count = 0;
    for (; length >= BLOCK; bytes += BLOCK, length -= BLOCK)
        count += feeds_of_block(bytes);
    for (; length > 0; bytes++, length--)
        count += *bytes == '\n';
    return count;
}
