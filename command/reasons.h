/* Why a line of the digest ends where it does, in words. */
#ifndef REASONS_H
#define REASONS_H

#include "options.h"

/* The library's reason for a line's end. It is the caller's to free; null if there is no memory. */
char *reason_in_words(const uint64_t reason[6], const struct options *options);

#endif
