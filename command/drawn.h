/* What is drawn, in memory until it is whole. */
#ifndef DRAWN_H
#define DRAWN_H

#include <stdbool.h>
#include <stddef.h>
#include <stdio.h>

struct sheet {
    FILE *out;
    char *bytes; /* the caller's to free, when it is closed */
    size_t length;
};

/* These answer false if there is no memory. What was opened is closed all the same. */
bool open_sheet(struct sheet *sheet);
bool close_sheet(struct sheet *sheet);

#endif
