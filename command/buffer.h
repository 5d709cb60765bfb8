/* Bytes that grow. */
#ifndef BUFFER_H
#define BUFFER_H

#include <stdarg.h>
#include <stdbool.h>
#include <stddef.h>
#include <stdint.h>

/* Functions that print: the compiler compares the format, which is such an argument, with the values from that one on. */
#if defined(__GNUC__)
#define PRINTS(sentence, values) __attribute__((format(printf, sentence, values)))
#else
#define PRINTS(sentence, values)
#endif

/* Bytes that stand somewhere. */
struct bytes {
    const uint8_t *at;
    size_t length;
};

/* All zero is an empty one. */
struct buffer {
    uint8_t *bytes;
    size_t length;
    size_t room;
};

/* Room for so many bytes after those that are there. These answer false, with errno, and leave the bytes as they are, if there is no memory. */
bool buffer_room(struct buffer *buffer, size_t more);
bool buffer_add(struct buffer *buffer, const void *bytes, size_t length);
bool buffer_print(struct buffer *buffer, const char *format, ...) PRINTS(2, 3);
/* The same of values that were handed on. */
bool buffer_fill(struct buffer *buffer, const char *format, va_list values) PRINTS(2, 0);
/* Gives the room back; the buffer is an empty one again. */
void buffer_free(struct buffer *buffer);

#endif
