/* The subcommands, as the list of them shows them; null after the last. */
#ifndef TABLE_H
#define TABLE_H

#include "subcommand.h"

extern const struct subcommand *const TABLE[];

#endif
