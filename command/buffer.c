/* Bytes that grow. */
#include "buffer.h"

#include <errno.h>
#include <stdio.h>
#include <stdlib.h>
#include <string.h>

/* It grows at least to twice its room, so that copying costs little in all. Tests have it grow by no more than is asked for: a byte after the
 * text is one after the room then, and a sanitizer sees who reads it. */
#ifndef GROWTH
#define GROWTH 2
#endif

bool buffer_room(struct buffer *buffer, size_t more) {
    size_t wanted = buffer->length + more, room = buffer->room > SIZE_MAX / GROWTH ? SIZE_MAX : GROWTH * buffer->room;
    uint8_t *wider;
    if (wanted < more) {
        errno = ENOMEM;
        return false;
    }
    if (wanted <= buffer->room)
        return true;
    if (room < wanted)
        room = wanted;
    wider = realloc(buffer->bytes, room);
    if (wider == NULL) {
        errno = ENOMEM;
        return false;
    }
    buffer->bytes = wider;
    buffer->room = room;
    return true;
}

bool buffer_add(struct buffer *buffer, const void *bytes, size_t length) {
    if (!buffer_room(buffer, length))
        return false;
    if (length > 0)
        memcpy(buffer->bytes + buffer->length, bytes, length);
    buffer->length += length;
    return true;
}

/* The zero byte that the system puts after the text is not counted. */
bool buffer_fill(struct buffer *buffer, const char *format, va_list values) {
    va_list again;
    int length;
    bool well;
    va_copy(again, values);
    length = vsnprintf(NULL, 0, format, again);
    va_end(again);
    well = length >= 0 && buffer_room(buffer, (size_t)length + 1);
    if (well) {
        vsnprintf((char *)buffer->bytes + buffer->length, (size_t)length + 1, format, values);
        buffer->length += (size_t)length;
    }
    return well;
}

bool buffer_print(struct buffer *buffer, const char *format, ...) {
    va_list values;
    bool well;
    va_start(values, format);
    well = buffer_fill(buffer, format, values);
    va_end(values);
    return well;
}

void buffer_free(struct buffer *buffer) {
    free(buffer->bytes);
    *buffer = (struct buffer){0};
}
