/* Bytes as a terminal may be given them: nothing in notes or names acts on it. */
#ifndef VISIBLE_H
#define VISIBLE_H

#include "buffer.h"

/* Puts the bytes after the buffer with all that would act, or cannot be seen, written out: a control character as ^[, a character that
 * changes the direction or begins a line as <U+202E>, a byte of no character as <9B>. Line feeds and tabs stay, and carriage returns before
 * line feeds. Answers false without memory. */
bool add_visible(struct buffer *buffer, const void *bytes, size_t length);
/* The same for one line: line feeds, tabs and carriage returns are written out too. */
bool add_visible_line(struct buffer *buffer, const void *bytes, size_t length);

/* A character beyond ASCII that is not seen and acts on what is. */
bool acts(uint32_t character);
/* The character that begins there, and its length; 0 if none does. */
size_t character_at(const uint8_t *bytes, size_t length, uint32_t *character);

#endif
