/* The command: finds the subcommand, reads its options and has it run. */
#include "help.h"
#include "output.h"
#include "table.h"

#include <signal.h>
#include <stdio.h>
#include <string.h>

static bool is(const char *word, const char *name) { return strcmp(word, name) == 0; }

/* What did not arrive counts, unless something worse was found. */
static int closed(int status, int unwritten, bool wanted) { return close_output(wanted) || status > unwritten ? status : unwritten; }

/* With -o the file is written if all is well; a drawing of what is not, too. */
static int closed_for(const struct subcommand *chosen, const struct options *options, int status) {
    bool wanted = status == WELL || (chosen->draws && output_begun());
    if (chosen->quiet && !output_begun())
        return status;
    if (!wanted && status == FAILED && options->value['o'] != NULL && !output_failed())
        say("%s: is not written", options->value['o']);
    return closed(status, chosen->unwritten == WELL ? FAILED : chosen->unwritten, wanted);
}

static int run_wrongly(const struct subcommand *chosen, const struct options *options) {
    wrong_call();
    return chosen->run_wrongly == NULL ? WRONG_CALL : chosen->run_wrongly(options);
}

static int run(const struct subcommand *chosen, int argc, char **argv) {
    struct options options;
    enum asked asked = read_options(&options, chosen->takes, argc, argv);
    int status;
    options.table = TABLE;
    if (asked == ASKED_HELP)
        return closed(show_help(chosen), FAILED, true);
    if (asked == ASKED_VERSION)
        return closed(show_version(), FAILED, true);
    set_output(options.value['o']);
    status = asked == ASKED_WORK ? chosen->run(&options) : run_wrongly(chosen, &options);
    return closed_for(chosen, &options, status);
}

static int run_named(int argc, char **argv) {
    static char name[32];
    const struct subcommand *chosen = subcommand_of(TABLE, argv[0]);
    if (chosen == NULL)
        return no_such_subcommand(TABLE, argv[0]);
    snprintf(name, sizeof name, "rudignals %s", argv[0]);
    subject = name;
    return run(chosen, argc, argv);
}

static int run_asked(int argc, char **argv) {
    if (argc < 2) {
        say("a subcommand is missing");
        return wrong_call();
    }
    if (is(argv[1], "--help") || is(argv[1], "-h"))
        return closed(show_list(TABLE), FAILED, true);
    if (is(argv[1], "--version") || is(argv[1], "-V"))
        return closed(show_version(), FAILED, true);
    return run_named(argc - 1, argv + 1);
}

/* The name after the last slash. */
static const char *name_in(const char *path) {
    const char *slash = strrchr(path, '/');
    return slash == NULL ? path : slash + 1;
}

/* A closed pipe is to be told like any other failure to write, so it must not end the program. */
int main(int argc, char **argv) {
    hold_streams();
    signal(SIGPIPE, SIG_IGN);
    if (argc > 0 && is(name_in(argv[0]), "fmt")) {
        called = subject = "fmt";
        return run(subcommand_of(TABLE, "format"), argc, argv);
    }
    return run_asked(argc, argv);
}
