/* Help, made of a subcommand's row; and rudignals help. */
#include "help.h"

#include "nearest.h"
#include "output.h"

#include <string.h>

/* ---- subcommands by their names */

/* fmt is another name of format, also where it is no link's. */
const struct subcommand *subcommand_of(const struct subcommand *const *table, const char *name) {
    if (strcmp(name, "fmt") == 0)
        name = "format";
    for (; *table != NULL; table++)
        if (strcmp((*table)->name, name) == 0)
            return *table;
    return NULL;
}

int no_such_subcommand(const struct subcommand *const *table, const char *name) {
    struct nearest nearest = nearest_to(name, strlen(name));
    for (; *table != NULL; table++)
        try_name(&nearest, (*table)->name);
    if (nearest.name != NULL)
        say("%s: no such subcommand; did you mean %s?", name, nearest.name);
    else
        say("%s: no such subcommand", name);
    return wrong_call();
}

/* ---- options */

enum { BESIDE = 27 };

/* `  -w, --width WIDTH        ', then what it does; below it if it is too long for that. */
static bool show_option(int option) {
    const struct option_row *row = row_of(option);
    const char *line = row->does, *end;
    struct buffer text = {0};
    bool well = option < KEEP ? buffer_print(&text, "  -%c, --%s", (char)option, row->name) : buffer_print(&text, "      --%s", row->name);
    if (row->value != NULL)
        well = well && buffer_print(&text, " %s", row->value);
    if (text.length + 1 > BESIDE)
        well = well && buffer_print(&text, "\n%*s", BESIDE, "");
    else
        well = well && buffer_print(&text, "%*s", (int)(BESIDE - text.length), "");
    for (; (end = strchr(line, '\n')) != NULL; line = end + 1)
        well = well && buffer_print(&text, "%.*s\n%*s", (int)(end - line), line, BESIDE, "");
    well = well && buffer_print(&text, "%s\n", line);
    if (!well)
        say("no memory for the help");
    well = well && write_out(text.bytes, text.length);
    buffer_free(&text);
    return well;
}

static bool takes(const struct subcommand *row, int option) {
    const int *at = row->takes;
    while (*at != 0 && *at != option)
        at++;
    return *at == option;
}

static const char REPEATED[] = "\nA repeated option takes its last value, and a long name may be cut short.\n";
static const char SHOWN[] = "\nOn a terminal control characters are shown, as ^[ for example; a file or a\npipe gets every byte as it is.\n";
static const char FORMATS[] = "\nWIDTH and GOAL are 1 to 1000, and WIDTH is from once to twice GOAL; WIDTH alone\n"
                              "is 6 to 1000, GOAL alone 3 to 940; -WIDTH, as the first argument, is short for\n"
                              "-w WIDTH. TAB is 0 to 100. %s at most 255 bytes. Text is\n"
                              "UTF-8; columns count by Unicode 15.0.0.\n";

int show_help(const struct subcommand *row) {
    const int *option;
    print_out("Usage: %s%s [OPTION]...%s%s\n%s\n", subject, takes(row, 'w') ? " [-WIDTH]" : "", *row->arguments == '\0' ? "" : " ", row->arguments, row->about);
    for (option = row->takes; *option != 0; option++)
        show_option(*option);
    show_option(HELP);
    show_option(VERSION);
    print_out("%s", REPEATED);
    if (takes(row, 'w'))
        print_out(FORMATS, takes(row, 'p') ? "PREFIX and PSKIP have" : "PSKIP has");
    if (takes(row, 'o'))
        print_out("%s", SHOWN);
    if (row->limits != NULL)
        print_out("\n%s", row->limits);
    print_out("\nExit status: %s.\n", row->statuses);
    return output_failed() ? FAILED : WELL;
}

int show_list(const struct subcommand *const *table) {
    print_out("Usage: rudignals SUBCOMMAND [OPTION]... [FILE]...\n"
              "A paragraph formatter for operators' notes.\n"
              "\n");
    for (; *table != NULL; table++)
        print_out("  %-10s %s\n", (*table)->name, (*table)->does);
    print_out("\n"
              "rudignals help SUBCOMMAND tells more; rudignals --version shows the version.\n"
              "Exit status: 0 done; 1 something was refused, not read or not written; 2 a\n"
              "wrong call. That of check is its own.\n");
    return output_failed() ? FAILED : WELL;
}

int show_version(void) { return print_out("rudignals " RUDIGNALS_VERSION "\n") ? WELL : FAILED; }

/* ---- rudignals help */

static int run_help(const struct options *options) {
    const struct subcommand *row;
    struct buffer name = {0};
    int status;
    if (options->count == 0)
        return show_list(options->table);
    if (options->count > 1) {
        say("one subcommand at a time");
        return wrong_call();
    }
    row = subcommand_of(options->table, options->files[0]);
    if (row == NULL)
        return no_such_subcommand(options->table, options->files[0]);
    if (!buffer_print(&name, "rudignals %s", row->name)) {
        say("no memory for the help");
        return FAILED;
    }
    subject = (char *)name.bytes;
    status = show_help(row);
    subject = "rudignals help";
    buffer_free(&name);
    return status;
}

static const int TAKES[] = {'o', 0};

const struct subcommand help_subcommand = {
    .name = "help",
    .does = "tell what a subcommand does, and its options",
    .arguments = "[SUBCOMMAND]",
    .about = "Tells of SUBCOMMAND what SUBCOMMAND --help tells, or which there are.\n",
    .takes = TAKES,
    .statuses = "0 told; " STATUSES,
    .words = "subcommands",
    .run = run_help,
};
