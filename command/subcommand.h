/* A subcommand: a row of the table in table.c, and a file of its own, NAME.c, in which the row stands. From the row are made its command line,
 * its help, its place in the list and its completion. */
#ifndef SUBCOMMAND_H
#define SUBCOMMAND_H

#include "options.h"
#include "say.h"

struct subcommand {
    const char *name;
    const char *does;      /* for the list of subcommands */
    const char *arguments; /* behind its options in the usage line */
    const char *about;     /* what it does, in lines of at most 79 columns; so are the next two */
    const int *takes;      /* the options, 0 behind the last; help and version go without saying */
    const char *limits;    /* what else is to be known of it; null: nothing */
    const char *statuses;  /* behind `Exit status: ` */
    const char *words;     /* what its first argument may be, parted by blanks; null: files */
    bool draws;            /* what it writes tells of failures too: then -o writes its file as well */
    bool quiet;            /* it may have nothing to write, and then no matter where to */
    int unwritten;         /* its status where what it wrote does not arrive; 0: FAILED */
    int (*run)(const struct options *options);
    int (*run_wrongly)(const struct options *options); /* behind what was said of a wrong call; null: no more than that */
};

/* The table's end is null. The subcommand of that name, or null. */
const struct subcommand *subcommand_of(const struct subcommand *const *table, const char *name);
/* Says that there is none, and which may have been meant. Answers the exit status. */
int no_such_subcommand(const struct subcommand *const *table, const char *name);

/* All that is asked of files. */
#define LIMIT "Limits: a file may have any length, a paragraph or a line at most 1048576\nbytes.\n"
/* The words of most exit statuses. */
#define STATUSES "1 something was refused, not read or\nnot written; 2 a wrong call"

#endif
