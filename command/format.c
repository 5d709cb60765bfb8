/* rudignals format: reads each file, has it formatted, writes the digest. */
#include "output.h"
#include "passes.h"
#include "subcommand.h"

#include <stdlib.h>

static enum taken write_digest(void *state, struct passes *passes, const struct part *part, size_t length) {
    uint64_t dashes = 0, answer = write_part(passes->options, false, part, passes->room.bytes, length, &dashes);
    (void)state;
    if (answer != length)
        return not_as_before(passes);
    return write_out(passes->room.bytes, length) ? GO_ON : BROKEN;
}

/* What stands for a file that is refused or cannot be read: nothing is left out silently. */
static bool write_refusal(void) { return print_out("REFUSED: %s\n", last_said()) && flush_out(); }

static bool write_file(struct passes *passes) {
    bool well = take_parts(passes, write_digest, NULL);
    close_file(passes);
    return flush_out() && well;
}

static bool format_file(struct passes *passes, const struct options *options, const char *name) {
    if (measure_file(passes, options, name))
        return write_file(passes);
    if (options->value[SKIP_REFUSED] != NULL)
        write_refusal();
    return false;
}

/* Each file's digest is out before the next file is read. Nobody would read them if one could not be written. */
static bool format_in_turn(const struct options *options, int count, char **names) {
    static struct passes passes;
    bool whole = true;
    int i;
    for (i = 0; i < count && !output_failed(); i++)
        whole = format_file(&passes, options, names[i]) && whole;
    free_passes(&passes);
    return whole;
}

/* ---- several files: all of them, or none */

static void drop_passes(struct passes **passes) {
    if (*passes != NULL)
        free_passes(*passes);
    free(*passes);
    *passes = NULL;
}

/* Is the file accepted? One that cannot be read again stays open, with what was read of it; of any other nothing is kept. */
static bool look_at_file(struct passes **looked, const struct options *options, const char *name) {
    *looked = calloc(1, sizeof **looked);
    if (*looked == NULL) {
        say("%s: no memory to read it", label_of(name));
        return false;
    }
    if (!measure_file(*looked, options, name)) {
        drop_passes(looked);
        return false;
    }
    if ((*looked)->window.kept == NULL) {
        close_file(*looked);
        drop_passes(looked);
    }
    return true;
}

static bool format_looked_at(struct passes **looked, const struct options *options, char **name) {
    bool well;
    if (*looked == NULL)
        return format_in_turn(options, 1, name);
    well = write_file(*looked);
    drop_passes(looked);
    return well;
}

static bool format_all_or_none(const struct options *options, int count, char **names) {
    struct passes **looked = calloc((size_t)count, sizeof *looked);
    bool whole = looked != NULL;
    int i;
    if (!whole)
        say("no memory for so many files");
    for (i = 0; looked != NULL && i < count; i++)
        whole = look_at_file(&looked[i], options, names[i]) && whole;
    for (i = 0; whole && i < count && !output_failed(); i++)
        whole = format_looked_at(&looked[i], options, &names[i]);
    for (i = 0; looked != NULL && i < count; i++)
        drop_passes(&looked[i]);
    free(looked);
    return whole;
}

static int format_files(const struct options *options, int count, char **names) {
    bool in_turn = count == 1 || options->value[SKIP_REFUSED] != NULL;
    return (in_turn ? format_in_turn(options, count, names) : format_all_or_none(options, count, names)) ? WELL : FAILED;
}

static int run_format(const struct options *options) {
    static char standard_input[] = "-";
    char *only[] = {standard_input};
    if (!options_accepted(options))
        return WRONG_CALL;
    return options->count == 0 ? format_files(options, 1, only) : format_files(options, options->count, options->files);
}

static const int TAKES[] = {SKIP_REFUSED, 'o', FORMATTING, SALVAGE, 0};

const struct subcommand format_subcommand = {
    .name = "format",
    .does = "reformat the paragraphs of notes; also called fmt",
    .arguments = "[FILE]...",
    .about = "Reformats the paragraphs of each FILE, or of standard input (also -), to\n"
             "standard output.\n",
    .takes = TAKES,
    .limits = "A file is formatted whole or refused whole. Of several files all are written,\n"
              "or none if one is refused or cannot be read; with --skip-refused a line that\n"
              "says so takes its place.\n"
              "\n"
              LIMIT,
    .statuses = "0 all was formatted; 1 something was refused, not read or not\n"
                "written; 2 a wrong call",
    .run = run_format,
};
