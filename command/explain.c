/* rudignals explain: why the lines of a file's digest end where they do. */
#include "json.h"
#include "lines.h"
#include "nextmail.h"
#include "output.h"
#include "passes.h"
#include "progress.h"
#include "reasons.h"
#include "subcommand.h"

#include <inttypes.h>
#include <stdlib.h>

/* What is asked, and how many lines the parts before had. */
struct question {
    bool one, json;
    uint64_t line; /* from 0, as the library counts */
    bool found;
    uint64_t lines_before;
    struct index index;
};

/* ---- a line and its reason */

/* In short, for a table. The column is as wide as seven tab stops, so that a line's own tabs stand right beside it. */
enum { BESIDE = 56 };

static bool add_short(struct buffer *text, const struct options *options, const uint64_t reason[6]) {
    switch (reason[0]) {
    case RUDIGNALS_PLAIN_LINE: return buffer_print(text, "plain line");
    case RUDIGNALS_BLANK_LINE: return buffer_print(text, "blank line");
    case RUDIGNALS_NOT_FIT:
        return buffer_print(text, "next word, %" PRIu64 " column%s, would reach %" PRIu64 " of %" PRIu64, reason[4], reason[4] == 1 ? "" : "s",
                            reason[1] + reason[2] + reason[3] + reason[4], width_of(options));
    case RUDIGNALS_CHOSEN:
        return buffer_print(text, "chosen: column %" PRIu64 ", goal %" PRIu64 ", cost %" PRIu64 " (%" PRIu64 ", %" PRIu64 ", %" PRIu64 ")", reason[1], goal_of(options),
                            reason[5], reason[2], reason[3], reason[4]);
    case RUDIGNALS_FORCED_BEFORE: return buffer_print(text, "forced before the next word, which fits no line");
    case RUDIGNALS_FORCED_AFTER: return buffer_print(text, "forced after its last word, which fits no line");
    default: return buffer_print(text, "end of paragraph");
    }
}

static bool add_row(struct buffer *text, const struct options *options, uint64_t line, const uint64_t reason[6], const uint8_t *bytes, size_t length) {
    bool well = buffer_print(text, "%4" PRIu64 "  ", line) && add_short(text, options, reason);
    return well && buffer_print(text, "%*s|", text->length < BESIDE - 1 ? (int)(BESIDE - 1 - text->length) : 1, "") && buffer_add(text, bytes, length);
}

static bool add_sentence(struct buffer *text, const struct options *options, uint64_t line, const uint64_t reason[6]) {
    char *told = reason_in_words(reason, options);
    bool well = told != NULL && buffer_print(text, "line %" PRIu64 ": %s\n", line, told);
    free(told);
    return well;
}

/* What a kind's numbers are called. */
static bool add_numbers(struct buffer *text, const struct options *options, const uint64_t reason[6]) {
    if (reason[0] == RUDIGNALS_NOT_FIT)
        return buffer_print(text, ",\"column\":%" PRIu64 ",\"gap\":%" PRIu64 ",\"added\":%" PRIu64 ",\"word\":%" PRIu64 ",\"width\":%" PRIu64, reason[1], reason[2],
                            reason[3], reason[4], width_of(options));
    if (reason[0] == RUDIGNALS_CHOSEN)
        return buffer_print(text, ",\"columns\":%" PRIu64 ",\"goal\":%" PRIu64 ",\"cost\":%" PRIu64 ",\"length\":%" PRIu64 ",\"word\":%" PRIu64 ",\"change\":%" PRIu64,
                            reason[1], goal_of(options), reason[5], reason[2], reason[3], reason[4]);
    return true;
}

static bool add_object(struct buffer *text, const struct options *options, uint64_t line, const uint64_t reason[6], const uint8_t *bytes, size_t length) {
    static const char *const KINDS[] = {"end of paragraph", "plain line", "blank line", "not fit", "chosen", "forced before", "forced after"};
    char *told = reason_in_words(reason, options);
    bool well = told != NULL && buffer_print(text, "{\"line\":%" PRIu64 ",\"kind\":\"%s\"", line, KINDS[reason[0] < 7 ? reason[0] : 0]) &&
                add_numbers(text, options, reason) && buffer_print(text, ",\"why\":") && add_json_words(text, told) && buffer_print(text, ",") &&
                add_json_text(text, "text", bytes, length - (length > 0 && bytes[length - 1] == '\n')) && buffer_print(text, "}\n");
    free(told);
    return well;
}

static bool tell_line(const struct question *question, const struct options *options, uint64_t line, const uint64_t reason[6], const uint8_t *bytes, size_t length) {
    struct buffer text = {0};
    bool well;
    if (question->json)
        well = add_object(&text, options, line, reason, bytes, length);
    else if (question->one)
        well = add_sentence(&text, options, line, reason);
    else
        well = add_row(&text, options, line, reason, bytes, length);
    if (!well)
        say("no memory for the words");
    well = well && write_out(text.bytes, text.length);
    buffer_free(&text);
    return well;
}

/* ---- one line: its part is asked as it stands */

static enum taken tell_one(struct question *question, const struct options *options, const struct part *part, const uint8_t *digest, size_t length) {
    struct lines lines = read_lines(digest, length);
    uint8_t room[RUDIGNALS_MOST_BLOCK];
    uint64_t reason[6] = {0}, wanted = question->line - question->lines_before;
    while (next_line(&lines)) {
        if (lines.number - 1 < wanted)
            continue;
        question->found = true;
        lent_explain(&own_work, block_of_part(block_of(options), part, room), (struct bytes){part->bytes, part->length}, wanted, reason);
        return tell_line(question, options, question->line + 1, reason, lines.line, lines.length) ? ENOUGH : BROKEN;
    }
    question->lines_before += lines.number;
    return GO_ON;
}

/* ---- all lines: piece by piece
 *
 * A call looks at all the notes that it is given, up to the line and after it. So each piece is asked about by itself: what a piece becomes
 * depends on its own lines and on next-mail alone (docs/RULES.md, Pieces and paragraphs). Next-mail matters where the flag mail is set, and
 * where it is false no paragraph is mail: then the piece is what it is without the flag. */

/* The lines of a piece, from the next one of the digest on. */
static bool tell_piece(const struct question *question, const struct options *options, struct bytes block, struct bytes piece, uint64_t count, struct lines *lines,
                       uint64_t *kind) {
    uint64_t line, reason[6] = {0};
    for (line = 0; line < count && next_line(lines); line++) {
        lent_explain(&own_work, block, piece, line, reason);
        if (line == 0)
            *kind = reason[0];
        if (!tell_line(question, options, question->lines_before + lines->number, reason, lines->line, lines->length))
            return false;
    }
    return true;
}

static enum taken tell_all(struct question *question, const struct passes *passes, const struct part *part, size_t length) {
    const struct options *options = passes->options;
    uint8_t room[RUDIGNALS_MOST_BLOCK];
    struct bytes block = block_of(options), plain = without_mail(block, room);
    struct lines lines = read_lines(passes->room.bytes, length);
    bool mail = !part->no_mail;
    uint64_t i, kind = RUDIGNALS_BLANK_LINE;
    for (i = 0; i < question->index.filled; i++) {
        const struct rudignals_record *record = &question->index.records[i];
        struct bytes piece = {part->bytes + record->place, (size_t)record->length};
        show_progress(part->bytes_before + (size_t)record->place, passes->window.size);
        if (!tell_piece(question, options, mail ? block : plain, piece, record->count, &lines, &kind))
            return BROKEN;
        mail = next_mail(block, mail, kind, piece);
    }
    question->lines_before += lines.number;
    return GO_ON;
}

/* ---- the file */

static enum taken explain_part(void *state, struct passes *passes, const struct part *part, size_t length) {
    struct question *question = state;
    if (!index_measured(passes, part, length, &question->index))
        return BROKEN;
    if (question->one)
        return tell_one(question, passes->options, part, passes->room.bytes, length);
    return tell_all(question, passes, part, length);
}

static bool explain_file(struct question *question, const struct options *options, const char *name) {
    static struct passes passes;
    bool whole = measure_file(&passes, options, name);
    if (whole) {
        whole = take_parts(&passes, explain_part, question);
        free_index(&question->index);
        close_file(&passes);
    }
    free_passes(&passes);
    if (whole && question->one && !question->found) {
        say_no_line(label_of(name), question->line + 1, question->lines_before);
        return false;
    }
    return whole;
}

static int run_explain(const struct options *options) {
    struct question question = {.json = options->value[JSON] != NULL, .one = options->count == 2};
    if (!options_accepted(options))
        return WRONG_CALL;
    if (options->count < 1 || options->count > 2) {
        say(options->count < 1 ? "a file is missing" : "one file and one line at a time");
        return wrong_call();
    }
    if (question.one && !read_line_number(options->files[1], &question.line))
        return wrong_call();
    question.line -= question.one;
    return explain_file(&question, options, options->files[0]) ? WELL : FAILED;
}

static const int TAKES[] = {JSON, 'o', FORMATTING, 0};

const struct subcommand explain_subcommand = {
    .name = "explain",
    .does = "tell why the lines of their digest end where they do",
    .arguments = "FILE [LINE]",
    .about = "Formats FILE (- is standard input) as `format' does, and tells why output line\n"
             "LINE ends where it does; without LINE it does so for each line, and shows the\n"
             "line beside it. Lines are counted from 1.\n"
             "\n"
             "A chosen break has three terms: for a line that is short or long, for a short\n"
             "last word, and for a line unlike the one before. Its cost is (1 + all three)\n"
             "squared.\n",
    .takes = TAKES,
    .limits = "With --json each object has the line, its kind, the numbers of that kind, why\n"
              "in words, and its text or, where that is not UTF-8, text-hex. A file is\n"
              "explained whole or refused whole.\n"
              "\n"
              LIMIT,
    .statuses = "0 every line was explained; 1 something was refused, not read or\n"
                "not written, or there is no such line; 2 a wrong call",
    .run = run_explain,
};
