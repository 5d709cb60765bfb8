/* Where text is damaged. */
#ifndef DAMAGE_H
#define DAMAGE_H

#include <stdbool.h>
#include <stddef.h>
#include <stdint.h>

/* The first byte from a place on at which no well-formed character begins, or the length. A character begins at the place. */
size_t first_damage(const uint8_t *bytes, size_t length, size_t at);
bool is_damaged(const uint8_t *bytes, size_t length);
/* How many lines have such a byte, from a place where one begins up to another. */
size_t damaged_lines(const uint8_t *bytes, size_t from, size_t to);

#endif
