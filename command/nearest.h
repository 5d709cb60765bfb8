/* The name that somebody may have meant. */
#ifndef NEAREST_H
#define NEAREST_H

#include <stddef.h>

/* Of the names that are tried, the one that is fewest letters away; null if all are too far. */
struct nearest {
    const char *typed;
    size_t length;
    size_t away;
    const char *name;
};
struct nearest nearest_to(const char *typed, size_t length);
void try_name(struct nearest *nearest, const char *name);

#endif
