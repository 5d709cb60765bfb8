/* rudignals completion: what a shell completes, made of the table. */
#include "output.h"
#include "subcommand.h"

#include <string.h>

/* ---- what all shells have in common */

/* Such values are names of files; of any other nothing is known. */
static bool takes_file(const struct option_row *row) {
    static const char *const FILES[] = {"FILE", "PICTURE", "PAGE"};
    size_t i;
    for (i = 0; row->value != NULL && i < sizeof FILES / sizeof FILES[0]; i++)
        if (strcmp(row->value, FILES[i]) == 0)
            return true;
    return false;
}

/* The options of a row, and after them the two that every one has. */
static int option_at(const struct subcommand *row, size_t number) {
    static const int MORE[] = {HELP, VERSION, 0};
    size_t i;
    for (i = 0; row->takes[i] != 0; i++)
        if (i == number)
            return row->takes[i];
    return number - i < 2 ? MORE[number - i] : 0;
}

/* fmt is another name of format. */
static const char *other_name(const struct subcommand *row, const char *before) { return strcmp(row->name, "format") == 0 ? before : ""; }

/* A text with a sign before each of some letters, and line feeds as spaces. */
static void put_quoted(const char *text, const char *letters, const char *quote) {
    for (; *text != '\0'; text++) {
        if (*text == '\'')
            print_out("%s", quote);
        else
            print_out("%s%c", strchr(letters, *text) != NULL ? "\\" : "", *text == '\n' ? ' ' : *text);
    }
}

static void put_names(const struct subcommand *const *table) {
    for (; *table != NULL; table++)
        print_out("%s%s ", (*table)->name, other_name(*table, " fmt"));
}

/* What its first argument may be: words of its own, or the names of the table. */
static bool names_subcommands(const struct subcommand *row) { return row->words != NULL && strcmp(row->words, "subcommands") == 0; }

static void put_words(const struct subcommand *const *table, const struct subcommand *row) {
    if (names_subcommands(row))
        put_names(table);
    else
        print_out("%s", row->words);
}

/* ---- bash */

static void put_bash_options(const struct subcommand *row, bool with_unknown_value) {
    const struct option_row *option;
    size_t i;
    for (i = 0; option_at(row, i) != 0; i++) {
        option = row_of(option_at(row, i));
        if (with_unknown_value && (option->value == NULL || takes_file(option)))
            continue;
        if (option->option < KEEP)
            print_out("-%c ", (char)option->option);
        print_out("--%s ", option->name);
    }
}

static void put_bash(const struct subcommand *const *table) {
    const struct subcommand *const *row;
    print_out("# rudignals in bash; made by: rudignals completion bash\n"
              "_rudignals() {\n"
              "    local word=${COMP_WORDS[COMP_CWORD]} before=${COMP_WORDS[COMP_CWORD - 1]} options= values= words=\n"
              "    if [ \"$COMP_CWORD\" -eq 1 ]; then\n"
              "        mapfile -t COMPREPLY < <(compgen -W \"");
    put_names(table);
    print_out("--help --version\" -- \"$word\")\n"
              "        return\n"
              "    fi\n"
              "    case ${COMP_WORDS[1]} in\n");
    for (row = table; *row != NULL; row++) {
        print_out("    %s%s) options=\"", (*row)->name, other_name(*row, " | fmt"));
        put_bash_options(*row, false);
        print_out("\" values=\"");
        put_bash_options(*row, true);
        print_out("\"");
        if ((*row)->words != NULL) {
            print_out(" words=\"");
            put_words(table, *row);
            print_out("\"");
        }
        print_out(" ;;\n");
    }
    print_out("    esac\n"
              "    if [[ \" $values\" == *\" $before \"* ]]; then\n"
              "        COMPREPLY=()\n"
              "    elif [[ $word == -* ]]; then\n"
              "        mapfile -t COMPREPLY < <(compgen -W \"$options\" -- \"$word\")\n"
              "    elif [ -n \"$words\" ]; then\n"
              "        mapfile -t COMPREPLY < <(compgen -W \"$words\" -- \"$word\")\n"
              "    else\n"
              "        compopt -o filenames 2>/dev/null\n"
              "        mapfile -t COMPREPLY < <(compgen -f -- \"$word\")\n"
              "    fi\n"
              "}\n"
              "complete -F _rudignals rudignals\n");
}

/* ---- zsh */

static void put_zsh_option(const struct option_row *option) {
    if (option->option < KEEP)
        print_out(" \\\n            '(-%c --%s)'{-%c,--%s}'[", (char)option->option, option->name, (char)option->option, option->name);
    else
        print_out(" \\\n            '--%s[", option->name);
    put_quoted(option->does, "[]:\\", "'\\''");
    print_out("]");
    if (option->value != NULL)
        print_out(":%s:%s", option->value, takes_file(option) ? "_files" : " ");
    print_out("'");
}

static void put_zsh(const struct subcommand *const *table) {
    const struct subcommand *const *row;
    size_t i;
    print_out("#compdef rudignals\n"
              "# rudignals in zsh; made by: rudignals completion zsh\n"
              "_rudignals() {\n"
              "    local -a subcommands\n"
              "    subcommands=(\n");
    for (row = table; *row != NULL; row++) {
        print_out("        '%s:", (*row)->name);
        put_quoted((*row)->does, ":\\", "'\\''");
        print_out("'\n");
    }
    print_out("    )\n"
              "    if ((CURRENT == 2)); then\n"
              "        _describe subcommand subcommands\n"
              "        return\n"
              "    fi\n"
              "    shift words\n"
              "    ((CURRENT--))\n"
              "    case $words[1] in\n");
    for (row = table; *row != NULL; row++) {
        print_out("    %s%s)\n        _arguments -s", (*row)->name, other_name(*row, " | fmt"));
        for (i = 0; option_at(*row, i) != 0; i++)
            put_zsh_option(row_of(option_at(*row, i)));
        if ((*row)->words != NULL) {
            print_out(" \\\n            '1:word:(");
            put_words(table, *row);
            print_out(")'");
        } else {
            print_out(" \\\n            '*:file:_files'");
        }
        print_out(" ;;\n");
    }
    print_out("    esac\n"
              "}\n"
              "_rudignals \"$@\"\n");
}

/* ---- fish */

static void put_fish_option(const struct subcommand *row, const struct option_row *option) {
    print_out("complete -c rudignals -n '__fish_seen_subcommand_from %s%s'", row->name, other_name(row, " fmt"));
    if (option->option < KEEP)
        print_out(" -s %c", (char)option->option);
    print_out(" -l %s%s -d '", option->name, option->value == NULL ? "" : takes_file(option) ? " -r -F" : " -x");
    put_quoted(option->does, "\\", "\\'");
    print_out("'\n");
}

static void put_fish(const struct subcommand *const *table) {
    const struct subcommand *const *row;
    size_t i;
    print_out("# rudignals in fish; made by: rudignals completion fish\n"
              "complete -c rudignals -n __fish_use_subcommand -f\n"
              "complete -c rudignals -n __fish_use_subcommand -s h -l help -d 'show the subcommands'\n"
              "complete -c rudignals -n __fish_use_subcommand -s V -l version -d 'show the version'\n");
    for (row = table; *row != NULL; row++) {
        print_out("complete -c rudignals -n __fish_use_subcommand -a %s -d '", (*row)->name);
        put_quoted((*row)->does, "\\", "\\'");
        print_out("'\n");
    }
    for (row = table; *row != NULL; row++) {
        if ((*row)->words != NULL) {
            print_out("complete -c rudignals -n '__fish_seen_subcommand_from %s' -f -a '", (*row)->name);
            put_words(table, *row);
            print_out("'\n");
        }
        for (i = 0; option_at(*row, i) != 0; i++)
            put_fish_option(*row, row_of(option_at(*row, i)));
    }
}

/* ---- the subcommand */

struct shell {
    const char *name;
    void (*put)(const struct subcommand *const *table);
};

static const struct shell SHELLS[] = {{"bash", put_bash}, {"zsh", put_zsh}, {"fish", put_fish}};

static int run_completion(const struct options *options) {
    const struct shell *end = SHELLS + sizeof SHELLS / sizeof SHELLS[0], *shell = SHELLS;
    if (options->count == 1)
        for (; shell < end && strcmp(shell->name, options->files[0]) != 0;)
            shell++;
    if (options->count != 1 || shell == end) {
        say("a shell is asked for: bash, zsh or fish");
        return wrong_call();
    }
    shell->put(options->table);
    return output_failed() ? FAILED : WELL;
}

static const int TAKES[] = {'o', 0};

const struct subcommand completion_subcommand = {
    .name = "completion",
    .does = "write what a shell needs to complete the command line",
    .arguments = "bash|zsh|fish",
    .about = "Writes the completion of subcommands, options and files, for that shell. With\n"
             "bash it takes effect by: source <(rudignals completion bash)\n",
    .takes = TAKES,
    .statuses = "0 all was written; " STATUSES,
    .words = "bash zsh fish",
    .run = run_completion,
};
