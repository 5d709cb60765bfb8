/* rudignals check: a digest that came with notes, checked against them. */
#include "accept.h"
#include "digest.h"
#include "json.h"
#include "lines.h"
#include "output.h"
#include "subcommand.h"

#include <errno.h>
#include <inttypes.h>
#include <string.h>

static bool read_file(struct buffer *buffer, const char *name) {
    bool whole = read_whole(name, buffer);
    if (!whole)
        say_failure(label_of(name), errno);
    return whole;
}

/* Notes that are refused are told as formatting tells them. */
static void say_refused(const struct options *options, char **names, struct bytes notes, const struct judgement *judgement) {
    struct digest digest = {0};
    if (judgement->code == RUDIGNALS_LONG_DIGEST)
        say("%s: the digest of the paragraph at line %lu of the notes has more than %u bytes", label_of(names[1]), 1 + feeds(notes.at, judgement->place), (unsigned)MOST_LARGE);
    else if (!digest_bytes(&digest, options, notes))
        say_refusal(label_of(names[0]), &digest.refusal);
    else
        say("%s: no memory to check it", label_of(names[1]));
    buffer_free(&digest.text);
}

/* A line of the digest, counted from 1: it is there and ended, there and not ended, or past the end. */
static void say_line(const char *name, struct bytes digest, unsigned long line) {
    struct lines lines = read_lines(digest.at, digest.length);
    while (lines.number < line && next_line(&lines))
        continue;
    if (lines.number < line)
        say("%s: line %lu: is missing; the digest is cut short", label_of(name), line);
    else if (!lines.fed)
        say("%s: line %lu: is not ended by a line feed", label_of(name), line);
    else
        say("%s: line %lu: no digest of these notes goes on with it", label_of(name), line);
}

/* The line is 0 unless one is to blame. */
static enum acceptance check_files(const struct options *options, char **names, unsigned long *line) {
    static struct buffer texts[2];
    struct bytes notes, digest;
    struct judgement judgement;
    if (!read_file(&texts[0], names[0]) || !read_file(&texts[1], names[1]))
        return NOT_JUDGED;
    notes = (struct bytes){texts[0].bytes, texts[0].length};
    digest = (struct bytes){texts[1].bytes, texts[1].length};
    judgement = judge(block_of(options), notes, digest);
    if (judgement.acceptance == NOT_ACCEPTED) {
        *line = (unsigned long)judgement.line + 1;
        say_line(names[1], digest, *line);
    } else if (judgement.acceptance == NOT_JUDGED) {
        say_refused(options, names, notes, &judgement);
    }
    return judgement.acceptance;
}

static bool write_record(char **names, enum acceptance verdict, unsigned long line) {
    static const char *const VERDICT[] = {"accepted", "not accepted", "not judged"};
    struct buffer text = {0};
    bool well = buffer_print(&text, "{\"notes\":") && add_json_words(&text, names[0]) && buffer_print(&text, ",\"digest\":") && add_json_words(&text, names[1]) &&
                buffer_print(&text, ",\"verdict\":\"%s\",\"line\":", VERDICT[verdict]) && (line == 0 ? buffer_print(&text, "null") : buffer_print(&text, "%lu", line)) &&
                buffer_print(&text, ",\"why\":") && (verdict == ACCEPTED ? buffer_print(&text, "null") : add_json_words(&text, last_said())) && buffer_print(&text, "}\n");
    if (!well)
        say("no memory for the record");
    well = well && write_out(text.bytes, text.length);
    buffer_free(&text);
    return well;
}

static int run_check(const struct options *options) {
    enum acceptance verdict;
    unsigned long line = 0;
    if (!options_accepted(options))
        return WRONG_CALL;
    if (options->count != 2) {
        say("NOTES and DIGEST are two files");
        return wrong_call();
    }
    if (strcmp(options->files[0], "-") == 0 && strcmp(options->files[1], "-") == 0) {
        say("NOTES and DIGEST cannot both be standard input");
        return wrong_call();
    }
    verdict = check_files(options, options->files, &line);
    if (options->value[JSON] != NULL && !write_record(options->files, verdict, line))
        return NOT_JUDGED;
    return (int)verdict;
}

static const int TAKES[] = {JSON, 'o', FORMATTING, 0};

const struct subcommand check_subcommand = {
    .name = "check",
    .does = "check a digest against its notes",
    .arguments = "NOTES DIGEST",
    .about = "Checks the digest of another site against its notes: plain and blank lines are\n"
             "those that `format' writes, and each paragraph's lines carry its words once\n"
             "each, in order, after the right indent. Where lines break, and how many\n"
             "blanks part two words, does not matter. One of the two may be -, standard\n"
             "input. Says nothing if the digest is accepted; otherwise names the first wrong\n"
             "line, one that no accepted digest has after the lines above it. Lines are\n"
             "counted from 1.\n",
    .takes = TAKES,
    .limits = "With --json one object is written whatever the verdict is: notes, digest,\n"
              "verdict (accepted, not accepted, not judged), line or null, why or null.\n"
              "Without it nothing is written.\n"
              "\n"
              LIMIT,
    .statuses = "0 accepted; 1 not accepted; 2 could not be judged: refused, not\n"
                "read, not written or a wrong call",
    .draws = true,
    .quiet = true,
    .unwritten = NOT_JUDGED,
    .run = run_check,
};
