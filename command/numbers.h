/* Numbers as a person types and reads them. */
#ifndef NUMBERS_H
#define NUMBERS_H

#include <stdbool.h>
#include <stddef.h>
#include <stdint.h>

/* Digits and nothing else, no sign and no blank: so many of them, at least one, that 64 bits can hold. Answers false, and leaves the number as
 * it is, for anything else. */
bool read_number(const char *text, size_t length, uint64_t *number);
/* Two hexadecimal digits, likewise. */
bool read_byte(const char *text, uint8_t *byte);

/* A number with a comma before each three digits: the end of the room, from where it begins. */
enum { GROUPED = 27 };
char *in_thousands(uint64_t number, char room[GROUPED]);

#endif
