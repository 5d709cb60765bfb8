/* Text as JSON has it. */
#ifndef JSON_H
#define JSON_H

#include "buffer.h"

/* Puts a string after the buffer, quoted. JSON is UTF-8: where a byte is part of no character, null is put and then, under another key, the
 * bytes in hex, so that none is lost. These answer false without memory. */
bool add_json_text(struct buffer *buffer, const char *key, const void *bytes, size_t length);
/* A name or a sentence; in it such a byte is U+FFFD. */
bool add_json_words(struct buffer *buffer, const char *text);

#endif
