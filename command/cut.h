/* Where notes may be cut. */
#ifndef CUT_H
#define CUT_H

#include <stdbool.h>
#include <stddef.h>
#include <stdint.h>

/* How long the first part of the bytes is, which may be cut at blank lines: as long as may be. 0 if there is no such place within so many. */
size_t first_part(const uint8_t *bytes, size_t length, bool ended, size_t most);
/* Is the line, with its line feed, one before and after which notes may be cut? */
bool parts_notes(const uint8_t *line, size_t length);

#endif
