/* What the library refuses, in words. */
#ifndef REFUSALS_H
#define REFUSALS_H

#include "options.h"

/* Why a file is refused: the library's code, and the place in the whole file, in bytes from 0, in lines and columns from 1. */
struct refusal {
    uint32_t code; /* RUDIGNALS_DONE: it is not */
    size_t place;
    unsigned long line;
    unsigned long column;
    uint8_t byte; /* the byte there */
};

/* Says why the block is refused, if it is. */
bool options_accepted(const struct options *options);
void say_refusal(const char *name, const struct refusal *at);
/* Says that a digest of so many lines has no such line, counted from 1. */
void say_no_line(const char *name, uint64_t line, uint64_t lines);

#endif
