/* Lines of bytes in memory, one after the other. */
#ifndef LINES_H
#define LINES_H

#include <stdbool.h>
#include <stddef.h>
#include <stdint.h>

/* The bytes, then the line that next_line found. */
struct lines {
    const uint8_t *bytes;
    size_t size;
    size_t next;          /* where the line behind it begins */
    const uint8_t *line;  /* with its line feed, if it has one */
    size_t length;
    bool fed;             /* it ends with a line feed, which the last may lack */
    unsigned long number; /* from 1 */
};

struct lines read_lines(const void *bytes, size_t size);
/* Answers false if there is no further line. */
bool next_line(struct lines *lines);
/* How many line feeds bytes have. */
unsigned long feeds(const uint8_t *bytes, size_t length);

#endif
