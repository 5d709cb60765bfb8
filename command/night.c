/* rudignals night: digest, mail, page and wall of each file of notes, whole and in their place. */
#define _POSIX_C_SOURCE 200809L
#include "night.h"

#include "say.h"
#include "subcommand.h"

#include <errno.h>
#include <stdio.h>
#include <stdlib.h>
#include <string.h>
#include <sys/wait.h>

/* ---- a night */

static void fail(struct night *night, enum outcome outcome) {
    night->outcome = outcome;
    night->reason = words("%s", last_said());
}

/* Lines in ISO 8859-1 are mended first, if so asked; what was read is kept for whoever wants it as it was. */
static bool mend_read(struct night *night) {
    night->raw.length = 0;
    night->mended = (struct mended){0};
    if (night->options->value[SALVAGE] == NULL)
        return true;
    if (!buffer_add(&night->raw, night->notes.bytes, night->notes.length) || !mend_notes(&night->notes, &night->mended))
        return false;
    night->facts.mended_lines = night->mended.lines;
    night->facts.mended_bytes = night->mended.bytes;
    say_mended(night->name, &night->mended);
    return true;
}

static void read_notes(struct night *night) {
    night->notes.length = 0;
    night->outcome = MADE;
    if (!read_whole(night->name, &night->notes)) {
        say_failure(night->name, errno);
        night->notes.length = 0;
        fail(night, NOT_READ);
    } else if (!mend_read(night)) {
        say_failure(night->name, ENOMEM);
        fail(night, NOT_READ);
    } else if (!digest_bytes(&night->digest, night->options, (struct bytes){night->notes.bytes, night->notes.length})) {
        say_refusal(night->name, &night->digest.refusal);
        night->digest.text.length = 0;
        fail(night, REFUSED);
    }
}

/* What the command says of how it went is said again here: a mail that nobody got is no mail. */
static bool hand_on(const char *command, const struct buffer *mail) {
    FILE *to = popen(command, "w");
    bool well = to != NULL && fwrite(mail->bytes, 1, mail->length, to) == mail->length;
    int status;
    well = to != NULL && fflush(to) == 0 && well;
    status = to == NULL ? -1 : pclose(to);
    if (well && status == 0)
        return true;
    if (status > 0 && WIFEXITED(status))
        say("the mail was not sent: `%s' ended with status %d", command, WEXITSTATUS(status));
    else
        say("the mail was not sent by `%s'", command);
    return false;
}

static const char *own_name(const char *name) {
    const char *slash = strrchr(name, '/');
    return slash == NULL ? name : slash + 1;
}

void find_night(struct night *night, const char *name) {
    night->name = name;
    night->label = label_of(own_name(name));
    night->facts = facts_of(name);
    night->counts = (struct counts){0};
    free(night->reason);
    night->reason = NULL;
    read_notes(night);
}

static bool make_night(struct night *night, const struct nights *nights, const char *name) {
    const char *command = night->options->value[SENDMAIL];
    bool put;
    find_night(night, name);
    put = make_outputs(night);
    if (!put)
        say_failure(name, errno);
    put = put && put_night(nights, night);
    if (put && command != NULL)
        put = hand_on(command, &night->output[DIGEST_EML]);
    return put && night->outcome == MADE && night->paged;
}

void free_night(struct night *night) {
    size_t i;
    for (i = 0; i < OUTPUTS; i++)
        buffer_free(&night->output[i]);
    buffer_free(&night->notes);
    buffer_free(&night->raw);
    buffer_free(&night->digest.text);
    free(night->reason);
    night->reason = NULL;
}

/* ---- the call */

/* Two files of one name would have one folder. */
static const char *named_twice(const struct options *options) {
    int i, j;
    for (i = 0; i < options->count; i++)
        for (j = 0; j < i; j++)
            if (strcmp(own_name(options->files[i]), own_name(options->files[j])) == 0)
                return options->files[i];
    return NULL;
}

static const char *nameless(const struct options *options) {
    int i;
    for (i = 0; i < options->count; i++) {
        const char *own = own_name(options->files[i]);
        if (*own == '\0' || *own == '.' || strcmp(options->files[i], "-") == 0)
            return options->files[i];
    }
    return NULL;
}

bool mail_options_accepted(const struct options *options) {
    const char *from = options->value[MAIL_FROM], *to = options->value[MAIL_TO];
    bool well = (from == NULL || is_address(from)) && (to == NULL || is_address(to));
    if (!well)
        say("%s: is no address, as name@host or Name <name@host>", from != NULL && !is_address(from) ? from : to);
    return well;
}

static bool goes_together(const struct options *options) {
    if (options->value[TO] == NULL)
        say("--to FOLDER is missing");
    else if (options->count == 0)
        say("a file of notes must be named");
    else if (nameless(options) != NULL)
        say("%s: gives a folder no name", nameless(options));
    else if (named_twice(options) != NULL)
        say("%s: another file has the same name, and a night is a folder of that name", named_twice(options));
    else
        return mail_options_accepted(options);
    return false;
}

static int run_night(const struct options *options) {
    static struct night night;
    struct nights nights;
    bool well = true;
    int i;
    if (!options_accepted(options))
        return WRONG_CALL;
    if (!goes_together(options))
        return wrong_call();
    if (!open_nights(&nights, options->value[TO]))
        return FAILED;
    night.options = options;
    for (i = 0; i < options->count; i++)
        well = make_night(&night, &nights, options->files[i]) && well;
    free_night(&night);
    close_nights(&nights);
    return well ? WELL : FAILED;
}

static const int TAKES[] = {TO, MAIL_FROM, MAIL_TO, MAIL_SUBJECT, ATTACH_PAGE, SENDMAIL, FORMATTING, SALVAGE, 0};

const struct subcommand night_subcommand = {
    .name = "night",
    .does = "make digest, mail, page and wall of notes, in a folder",
    .arguments = "NOTES...",
    .about = "Makes of each file of notes, in a folder of its name below FOLDER:\n"
             "\n"
             "  digest.txt   the digest, as `format' writes it\n"
             "  digest.eml   the digest as a whole mail, the notes attached\n"
             "  page.html    the page that `page' writes\n"
             "  wall.svg, wall.html\n"
             "               the wall panel, as `panel' draws it in a picture and on a page\n"
             "  index.json   which notes each line comes from\n"
             "  status.json  version, options, sizes, counts and times\n"
             "\n"
             "All of them are put in their place in one step: whoever looks sees the old\n"
             "night or the new one, whole. If notes are refused or cannot be read, each of\n"
             "these files says so, with the place and the reason, and has the notes as they\n"
             "are; no file is empty unless the notes are.\n",
    .takes = TAKES,
    .limits = "A run that was broken off leaves the old night, and the next one cleans up.\n"
              "Where -c, -t, -m or -p is given the mail has the digest's own lines; else they\n"
              "flow.\n"
              "\n"
              LIMIT
              "Of a digest of more than 65536 lines or 4 MiB the page shows the last.\n",
    .statuses = "0 every night was made; " STATUSES,
    .run = run_night,
};
