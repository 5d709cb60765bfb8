/* rudignals audit: an archive of digests held against their notes, pair by pair. */
#define _POSIX_C_SOURCE 200809L
#include "audit.h"

#include "numbers.h"
#include "output.h"
#include "refusals.h"
#include "report.h"
#include "streams.h"
#include "subcommand.h"
#include "whole.h"

#include <errno.h>
#include <stdio.h>
#include <stdlib.h>
#include <string.h>
#include <sys/stat.h>
#include <time.h>
#include <unistd.h>

/* The exit status: everything is there; text or a file is missing, or text was added; something could not be judged, or a wrong call. */
enum { ALL_THERE = 0, NOT_ALL_THERE = 1, NOT_ALL_JUDGED = 2 };

/* ---- how far it has come, on a terminal */

static double now(void) {
    struct timespec time;
    return clock_gettime(CLOCK_MONOTONIC, &time) == 0 ? (double)time.tv_sec + 1e-9 * (double)time.tv_nsec : 0;
}

struct progress_bar {
    bool shown;
    double begun, next;
    size_t pairs, bytes;
};

static void show_bar(struct progress_bar *bar, size_t all) {
    double at = now(), left = bar->pairs == 0 ? 0 : (at - bar->begun) / (double)bar->pairs * (double)(all - bar->pairs);
    char pairs[GROUPED], of[GROUPED];
    int filled = all == 0 ? 0 : (int)(20 * bar->pairs / all);
    if (!isatty(STDERR_FILENO) || at < bar->next)
        return;
    bar->next = at + 0.2;
    bar->shown = true;
    fprintf(stderr, "\r[%.*s%.*s] %s of %s pairs, %zu MB, %.0f s left ", filled, "####################", 20 - filled, "....................", in_thousands(bar->pairs, pairs),
            in_thousands(all, of), bar->bytes / 1000000, left);
    fflush(stderr);
}

static void clear_bar(struct progress_bar *bar) {
    if (bar->shown)
        fprintf(stderr, "\r%70s\r", "");
    bar->shown = false;
}

/* ---- pairs as they are judged */

struct showing {
    const struct options *options;
    struct report *report; /* null: none is asked for */
    struct progress_bar bar;
    bool well;
};

static bool is_shown(const struct showing *showing, const struct audited *row) {
    return showing->options->value[JSON] != NULL || showing->options->value[ALL] != NULL || row->finding.verdict != CARRIED;
}

static void show_pair(struct audit *audit, struct audited *row, void *with) {
    struct showing *showing = with;
    struct buffer line = {0};
    showing->bar.pairs++;
    showing->bar.bytes += row->read;
    if (showing->report != NULL)
        report_pair(showing->report, audit, row);
    if (is_shown(showing, row)) {
        clear_bar(&showing->bar);
        if (!(showing->options->value[JSON] != NULL ? add_record(&line, row) : add_line(&line, row)))
            say("no memory for what was found");
        showing->well = line.length > 0 && write_out(line.bytes, line.length) && showing->well;
        buffer_free(&line);
    }
    show_bar(&showing->bar, audit->pairs.length);
}

static bool show_summary(const struct showing *showing, const struct audit *audit) {
    struct buffer summary = {0};
    bool well = add_summary(&summary, audit);
    if (!well)
        say("no memory for the summary");
    else if (showing->options->value[JSON] == NULL)
        well = write_out(summary.bytes, summary.length);
    else
        say("%.*s", (int)summary.length - 1, (const char *)summary.bytes);
    buffer_free(&summary);
    return well;
}

/* ---- the report */

static const char *said_of(const struct options *options, int which) {
    return options->value[PAIRS] != NULL ? (which == 0 ? "their notes" : options->value[PAIRS]) : options->files[which];
}

static bool write_report(struct report *report, const struct audit *audit, const struct options *options) {
    struct buffer page = {0};
    char drawn[64] = "";
    time_t seconds = time(NULL);
    struct tm local;
    bool well;
    if (localtime_r(&seconds, &local) != NULL)
        strftime(drawn, sizeof drawn, "%Y-%m-%d %H:%M", &local);
    well = end_report(report, audit, said_of(options, 0), said_of(options, 1), drawn, &page) && write_whole(options->value[REPORT], page.bytes, page.length);
    if (!well)
        say_failure(options->value[REPORT], errno);
    buffer_free(&page);
    return well;
}

/* ---- the audit */

static struct heads heads_of(const struct options *options) {
    const char *prefix = options->value['p'], *skip = options->value['P'];
    return (struct heads){(const uint8_t *)prefix, (const uint8_t *)skip, prefix == NULL ? 0 : strlen(prefix), skip == NULL ? 0 : strlen(skip), options->value['x'] != NULL, options->value['X'] != NULL};
}

static int status_of(const struct audit *audit, bool strict) {
    size_t there = audit->counts[CARRIED] + (strict ? 0 : audit->counts[LAYOUT]);
    if (audit->counts[UNJUDGED] > 0)
        return NOT_ALL_JUDGED;
    return there == audit->pairs.length ? ALL_THERE : NOT_ALL_THERE;
}

static int audit_pairs(struct audit *audit, const struct options *options) {
    struct report report;
    struct showing showing = {options, NULL, {0}, true};
    bool well;
    showing.bar.begun = now();
    showing.bar.next = showing.bar.begun + 1;
    if (options->value[REPORT] != NULL) {
        audit->keep_texts = true;
        if (!begin_report(&report)) {
            say_failure(options->value[REPORT], errno);
            return NOT_ALL_JUDGED;
        }
        showing.report = &report;
    }
    well = judge_pairs(audit, show_pair, &showing);
    clear_bar(&showing.bar);
    if (!well)
        say("nothing was judged: %s", strerror(errno));
    well = well && showing.well && show_summary(&showing, audit);
    if (showing.report != NULL)
        well = write_report(&report, audit, options) && well;
    return well ? status_of(audit, options->value[STRICT] != NULL) : NOT_ALL_JUDGED;
}

/* ---- what is to be audited */

enum kind_of_name { NAME_MISSING, NAME_FOLDER, NAME_FILE };

static enum kind_of_name kind_of(const char *name) {
    struct stat about;
    if (stat(name, &about) != 0)
        return NAME_MISSING;
    return S_ISDIR(about.st_mode) ? NAME_FOLDER : NAME_FILE;
}

static bool add_named(struct audit *audit, char **names, bool *well) {
    enum kind_of_name notes = kind_of(names[0]), digests = notes == NAME_MISSING ? NAME_MISSING : kind_of(names[1]);
    if (notes == NAME_MISSING || digests == NAME_MISSING) {
        say_failure(names[notes != NAME_MISSING], errno);
        return false;
    }
    if (notes != digests) {
        say("NOTES and DIGESTS are two folders or two files; %s is a folder", names[digests == NAME_FOLDER]);
        return false;
    }
    *well = notes == NAME_FOLDER ? add_folders(&audit->pairs, names[0], names[1]) : add_pair(&audit->pairs, names[0], names[1], NULL);
    return true;
}

static bool add_listed_pairs(struct audit *audit, const char *name, bool *well) {
    struct buffer list = {0};
    bool read = read_whole(name, &list);
    if (read)
        *well = add_list(&audit->pairs, (const char *)list.bytes, list.length);
    else
        say_failure(label_of(name), errno);
    buffer_free(&list);
    return read;
}

/* Answers false for a wrong call, of which it was said what is wrong. */
static bool find_pairs(struct audit *audit, const struct options *options, bool *well) {
    int names = options->value[PAIRS] == NULL ? 2 : 0;
    if (options->count == names)
        return names == 0 ? add_listed_pairs(audit, options->value[PAIRS], well) : add_named(audit, options->files, well);
    say(names == 0 ? "--pairs names the files: no other can be" : "NOTES and DIGESTS are two folders, or two files");
    return false;
}

static bool read_jobs(struct audit *audit, const char *typed) {
    long cores = sysconf(_SC_NPROCESSORS_ONLN);
    uint64_t number = cores < 1 ? 1 : (uint64_t)cores;
    if (typed != NULL && (!read_number(typed, strlen(typed), &number) || number == 0 || number > 64)) {
        say("--jobs %s: a number from 1 to 64 is asked for", typed);
        return false;
    }
    audit->jobs = (unsigned)number;
    return true;
}

static int run_audit(const struct options *given) {
    struct options options = *given;
    struct audit audit = {0};
    bool well = true;
    int status;
    if (options.value[NO_KEEP] == NULL)
        add_flag(&options, RUDIGNALS_KEEP);
    if (!options_accepted(&options))
        return WRONG_CALL;
    audit.terms = (struct terms){{options.block, options.block_len}, heads_of(&options), options.value[NO_KEEP] == NULL};
    if (!read_jobs(&audit, options.value[JOBS]) || !find_pairs(&audit, &options, &well)) {
        free_pairs(&audit.pairs);
        return wrong_call();
    }
    if (well) {
        sort_pairs(&audit.pairs);
        status = audit_pairs(&audit, &options);
    } else {
        say("no memory for the names of the files");
        status = NOT_ALL_JUDGED;
    }
    free_pairs(&audit.pairs);
    return status;
}

static const int TAKES[] = {PAIRS, ALL, STRICT, JSON, REPORT, JOBS, 'o', LAYING_OUT, NO_KEEP, 0};

const struct subcommand audit_subcommand = {
    .name = "audit",
    .does = "find what digests of an archive lack of their notes",
    .arguments = "NOTES DIGESTS",
    .about = "Holds the digests of an archive against their notes. NOTES and DIGESTS are two\n"
             "folders, whose files belong together if their names are the same but for the\n"
             "last suffix, at any depth; or two files; or --pairs names them. Each pair gets\n"
             "one verdict:\n"
             "\n"
             "  carried              the digest is one of these notes, as `check' accepts it\n"
             "  laid out otherwise   every word is there once and in order, and nothing\n"
             "                       else; but a line is not as the rules have it\n"
             "  text missing         the lines of the notes, and how many of their words\n"
             "  text added           the lines of the digest, and how many of their words\n"
             "  no digest, no notes  one of the two files is not there\n"
             "  could not be judged  and why\n"
             "\n"
             "A line is written for each pair that is not carried, and a summary. A line of\n"
             "the notes with a stray byte should be in the digest as it is.\n",
    .takes = TAKES,
    .limits = "Give the options that the digests were made with, where prefixes or indents\n"
              "depend on them; width and goal do not matter.\n"
              "\n"
              LIMIT
              "Of a longer one it still says whether words are missing; if none is, the pair\n"
              "cannot be judged.\n",
    .statuses = "0 every pair is carried or laid out otherwise (with --strict:\n"
                "carried); 1 text is missing or was added, or a file is missing; 2 something\n"
                "could not be judged or written, or a wrong call",
    .draws = true,
    .unwritten = NOT_ALL_JUDGED,
    .run = run_audit,
};
