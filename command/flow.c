/* rudignals flow: the digest of a file as the body of mail of format=flowed. */
#include "night.h"
#include "output.h"
#include "passes.h"
#include "subcommand.h"

#include <inttypes.h>

/* What is told of a mail after it. A line goes from part to part: they are cut at blank lines. */
struct told {
    uint64_t dashes;
    size_t longest; /* line, in octets */
};

static enum taken write_mail(void *state, struct passes *passes, const struct part *part, size_t length) {
    struct told *told = state;
    uint64_t answer = write_part(passes->options, true, part, passes->room.bytes, length, &told->dashes);
    struct buffer written = {passes->room.bytes, length, length};
    size_t longest = longest_line(&written);
    if (answer != length)
        return not_as_before(passes);
    told->longest = longest > told->longest ? longest : told->longest;
    return write_out(passes->room.bytes, length) ? GO_ON : BROKEN;
}

static void tell(const struct told *told, const char *label) {
    if (told->dashes > 0)
        say("%s: %" PRIu64 " line%s `--' in paragraphs: a mail reader ends the paragraph there", label, told->dashes, told->dashes == 1 ? "" : "s");
    if (told->longest > MOST_OCTETS)
        say("%s: a line has %zu octets, and mail takes %d as they are; --mime encodes it", label, told->longest, MOST_OCTETS);
}

static int flow_file(const struct options *options, const char *name) {
    static struct passes passes;
    struct told told = {0, 0};
    bool whole;
    passes.mail = true;
    whole = measure_file(&passes, options, name);
    if (whole) {
        whole = take_parts(&passes, write_mail, &told);
        close_file(&passes);
    }
    if (whole)
        tell(&told, label_of(name));
    free_passes(&passes);
    return whole ? WELL : FAILED;
}

/* A whole mail; of notes that are refused one that says so, and has them. */
static int mail_file(const struct options *options, const char *name) {
    static struct night night;
    bool well;
    night.options = options;
    find_night(&night, name);
    well = make_mail_alone(&night);
    if (!well)
        say("%s: no memory for the mail", label_of(name));
    well = well && write_out(night.output[DIGEST_EML].bytes, night.output[DIGEST_EML].length) && night.outcome == MADE;
    free_night(&night);
    return well ? WELL : FAILED;
}

static int run_flow(const struct options *options) {
    const char *name = options->count == 0 ? "-" : options->files[0];
    if (!options_accepted(options))
        return WRONG_CALL;
    if (options->count > 1) {
        say("one file at a time");
        return wrong_call();
    }
    if (!mail_options_accepted(options))
        return wrong_call();
    return options->value[MIME] == NULL ? flow_file(options, name) : mail_file(options, name);
}

/* What the library refuses in a block for mail is not there: -c, -t, -m, -p, and -x, which goes with -p. */
static const int TAKES[] = {MIME, MAIL_FROM, MAIL_TO, MAIL_SUBJECT, 'o', 's', 'u', 'P', 'X', 'w', 'g', 'q', 'T', KEEP, GLUE, CHARACTERS, SALVAGE, 0};

const struct subcommand flow_subcommand = {
    .name = "flow",
    .does = "write the digest of notes as mail of format=flowed",
    .arguments = "[FILE]",
    .about = "Formats FILE, or standard input (also -), as `format -q -u' does, and writes\n"
             "the digest as the body of mail, for a header such as\n"
             "\n"
             "  Content-Type: text/plain; charset=UTF-8; format=flowed\n"
             "\n"
             "Lines end in CR LF, and where a paragraph goes on in a space before it: whoever\n"
             "reads the mail may break the lines anew. A line `-- ', which would begin a\n"
             "signature, is written as `--', and that is reported. -q and -u are always on.\n",
    .takes = TAKES,
    .limits = "A file is written whole or refused whole. With --mime the whole mail is\n"
              "written, with From, To, Subject, Date and a number, as quoted-printable if a\n"
              "line has over 998 octets, the notes attached; if they are refused the mail\n"
              "says so.\n"
              "\n"
              LIMIT,
    .statuses = "0 all was written; " STATUSES,
    .draws = true,
    .run = run_flow,
};
