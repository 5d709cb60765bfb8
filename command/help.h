/* Help, made of a subcommand's row. */
#ifndef HELP_H
#define HELP_H

#include "subcommand.h"

/* These answer the exit status. */
int show_help(const struct subcommand *row);
int show_list(const struct subcommand *const *table);
int show_version(void);

#endif
