/* The command line, and the option block made of it. */
#include "options.h"

#include "nearest.h"
#include "numbers.h"
#include "say.h"

#include <getopt.h>
#include <string.h>

/* Every option there is, with or without a flag of the library's. */
static const struct option_row ROWS[] = {
    {TEXT, "text", NULL, "as text in a frame; this is the default", 0},
    {SVG, "svg", "PICTURE", "as a picture, 1920 x 1080; - is standard output", 0},
    {HTML, "html", "PAGE", "as a page for a browser that fills a wall: it reads\nitself anew, and turns red when it is over two\nminutes old; - is standard output", 0},
    {FOLLOW, "follow", NULL, "draw again whenever FILE changes, and at least every\nminute, until a signal (Ctrl-C) ends it", 0},
    {CUT, "cut", NULL, "a line is one row, and what runs past column 80 is\ncut; else it is folded", 0},
    {LINE, "line", "LINE", "show the notes under output line LINE instead", 0},
    {JSON, "json", NULL, "write JSON Lines, an object a line, for programs", 0},
    {PAIRS, "pairs", "LIST", "take the pairs from LIST, a pair a line, a tab\nbetween the names; - is standard input", 0},
    {ALL, "all", NULL, "show every pair, those that are carried too", 0},
    {STRICT, "strict", NULL, "take a digest that is laid out otherwise for one\nthat is not right", 0},
    {REPORT, "html", "REPORT", "write a page for a browser, too: the year at a\nglance, and of each pair both texts", 0},
    {JOBS, "jobs", "N", "judge N pairs at once; by default as many as there\nare processors", 0},
    {SKIP_REFUSED, "skip-refused", NULL, "write the other files if one is refused, and a line\nin its place that says so", 0},
    {MIME, "mime", NULL, "write the whole mail, with its headers", 0},
    {TO, "to", "FOLDER", "the folder that the nights are made in", 0},
    {MAIL_FROM, "mail-from", "ADDRESS", "who the mail is from; by default rudignals at this\nmachine", 0},
    {MAIL_TO, "mail-to", "ADDRESS", "who the mail is for; by default who it is from", 0},
    {MAIL_SUBJECT, "mail-subject", "TEXT", "what the subject begins with, in the place of the\nfile's name; counts follow it", 0},
    {ATTACH_PAGE, "attach-page", NULL, "attach the page to the mail, too", 0},
    {SENDMAIL, "sendmail", "COMMAND", "hand the mail to COMMAND on its standard input, as\n`sendmail -t' takes it", 0},
    {'o', "output", "FILE", "write to FILE, whole and in its place, instead of\nto standard output", 0},
    {'c', "crown-margin", NULL, "a paragraph's first two lines may have indents of\ntheir own", RUDIGNALS_CROWN},
    {'t', "tagged-paragraph", NULL, "as -c, and the two indents must differ", RUDIGNALS_TAGGED},
    {'m', "preserve-headers", NULL, "keep mail headers apart", RUDIGNALS_MAIL},
    {'s', "split-only", NULL, "split long lines, join none", RUDIGNALS_SPLIT},
    {'u', "uniform-spacing", NULL, "one space between words, two between sentences", RUDIGNALS_UNIFORM},
    {'p', "prefix", "PREFIX", "format only lines that begin with PREFIX, and put it\nback", 0},
    {'P', "skip-prefix", "PSKIP", "leave lines that begin with PSKIP as they are", 0},
    {'x', "exact-prefix", NULL, "look for PREFIX at the line's start only", RUDIGNALS_EXACT_PREFIX},
    {'X', "exact-skip-prefix", NULL, "look for PSKIP at the line's start only", RUDIGNALS_EXACT_SKIP},
    {'w', "width", "WIDTH", "the most columns of a line; 79 by default", 0},
    {'g', "goal", "GOAL", "the columns aimed at; by default 94 in 100 of WIDTH,\nat most WIDTH - 3", 0},
    {'q', "quick", NULL, "fill line by line; more ragged", RUDIGNALS_QUICK},
    {'T', "tab-width", "TAB", "columns between tab stops; 8 by default", 0},
    {KEEP, "keep", NULL, "leave a line with a damaged character as it is,\ninstead of refusing its file", RUDIGNALS_KEEP},
    {NO_KEEP, "no-keep", NULL, "notes with a damaged character cannot be judged;\nelse such a line should be there as it is", 0},
    {SALVAGE, "salvage", NULL, "mend lines that are not UTF-8 in memory first, as\n`rudignals salvage' does, and say how many", 0},
    {GLUE, "glue", NULL, "a no-break space, U+00A0, is part of its word; not\nbeside a blank or at a line's start or end", RUDIGNALS_GLUE},
    {CHARACTERS, "sentence-characters", NULL, "with -u: between sentences count blanks as\ncharacters; else one U+00A0 counts as two, its bytes", RUDIGNALS_SENTENCE_CHARACTERS},
    {HELP, "help", NULL, "show this", 0},
    {VERSION, "version", NULL, "show the version", 0},
};

enum { COUNT = sizeof ROWS / sizeof ROWS[0] };

const struct option_row *row_of(int option) {
    const struct option_row *row = ROWS;
    while (row->option != option)
        row++;
    return row;
}

const char *name_of(int option) { return row_of(option)->name; }

/* ---- numbers */

static bool is_digit(char letter) { return letter >= '0' && letter <= '9'; }

/* A number, with a plus sign before it or not, as the original reads it. What is none, or one that two bytes cannot hold, becomes the largest
 * that they can: that is over every limit, and so it is the library that refuses it. */
static uint16_t number_in(const char *text) {
    uint64_t value;
    if (*text == '+')
        text++;
    return read_number(text, strlen(text), &value) && value < UINT16_MAX ? (uint16_t)value : UINT16_MAX;
}

uint64_t tab_of(const struct options *options) { return options->value['T'] == NULL ? 8 : number_in(options->value['T']); }

/* The rule of width and goal, where one of them is given or none. */
uint64_t width_of(const struct options *options) {
    uint64_t goal;
    if (options->value['w'] != NULL)
        return number_in(options->value['w']);
    if (options->value['g'] == NULL)
        return 79;
    goal = number_in(options->value['g']);
    return goal * 100 / 94 > goal + 3 ? goal * 100 / 94 : goal + 3;
}

uint64_t goal_of(const struct options *options) {
    uint64_t width = width_of(options);
    if (options->value['g'] != NULL)
        return number_in(options->value['g']);
    if (options->value['w'] == NULL)
        return 74;
    return width * 94 / 100 < width - 3 ? width * 94 / 100 : width - 3;
}

bool read_line_number(const char *typed, uint64_t *line) {
    if (read_number(typed, strlen(typed), line) && *line > 0)
        return true;
    say("%s: no line number; lines are counted from 1", *typed == '\0' ? "''" : typed);
    return false;
}

/* ---- the block */

static void add_number(struct options *options, enum rudignals_tag tag, int option) {
    if (options->value[option] != NULL)
        options->block_len = rudignals_put_number(options->block, options->block_len, tag, number_in(options->value[option]));
}

static void add_prefix(struct options *options, enum rudignals_tag tag, int option) {
    const char *text = options->value[option];
    if (text != NULL)
        options->block_len = rudignals_put_prefix(options->block, options->block_len, tag, (const uint8_t *)text, strlen(text));
}

/* The tags ascend. What is not given has no field: an empty prefix is another thing than none, and the defaults are the library's. */
static void build_block(struct options *options) {
    options->block_len = 0;
    if (options->flags != 0)
        options->block_len = rudignals_put_number(options->block, 0, RUDIGNALS_TAG_FLAGS, options->flags);
    add_number(options, RUDIGNALS_TAG_WIDTH, 'w');
    add_number(options, RUDIGNALS_TAG_GOAL, 'g');
    add_number(options, RUDIGNALS_TAG_TAB, 'T');
    add_prefix(options, RUDIGNALS_TAG_PREFIX, 'p');
    add_prefix(options, RUDIGNALS_TAG_SKIP, 'P');
}

void add_flag(struct options *options, uint16_t flag) {
    options->flags |= flag;
    build_block(options);
}

/* ---- reading: the options that a subcommand takes, as getopt_long wants them */

struct wanted {
    char letters[3 * COUNT + 16];
    struct option rows[COUNT + 1];
    size_t count;
    bool width; /* also as -60 */
};

static void want(struct wanted *wanted, int option) {
    const struct option_row *row = row_of(option);
    char *end = wanted->letters + strlen(wanted->letters);
    wanted->rows[wanted->count++] = (struct option){row->name, row->value == NULL ? no_argument : required_argument, NULL, option};
    if (option < KEEP) {
        *end++ = (char)option;
        if (row->value != NULL)
            *end++ = ':';
        *end = '\0';
    }
    wanted->width = wanted->width || option == 'w';
}

/* The colon in front has getopt_long say nothing and tell a missing value apart; a digit is a width such as -60 that is not the first
 * argument. */
static struct wanted wanted_of(const int *takes) {
    struct wanted wanted = {":", {{NULL, 0, NULL, 0}}, 0, false};
    for (; *takes != 0; takes++)
        want(&wanted, *takes);
    want(&wanted, HELP);
    want(&wanted, VERSION);
    if (wanted.width)
        strcat(wanted.letters, "0123456789");
    return wanted;
}

/* ---- what is wrong with an option */

/* An option that another subcommand has. */
static bool say_elsewhere(const char *name, size_t length, int letter) {
    const struct option_row *row = ROWS, *end = ROWS + COUNT;
    while (row < end && row->option != letter && (strlen(row->name) != length || strncmp(row->name, name, length) != 0))
        row++;
    if (row < end)
        say("--%s: `%s' does not have it", row->name, subject);
    return row < end;
}

/* A long one that is cut short may stand for several. */
static void say_unknown(const struct wanted *wanted, const char *word) {
    size_t length = strcspn(word, "="), i, fits = 0;
    struct nearest nearest = nearest_to(word + 2, length - 2);
    for (i = 0; i < wanted->count; i++) {
        fits += strncmp(wanted->rows[i].name, word + 2, length - 2) == 0;
        try_name(&nearest, wanted->rows[i].name);
    }
    if (fits > 1)
        say("option '%.*s' is cut too short: several begin so", (int)length, word);
    else if (say_elsewhere(word + 2, length - 2, 0))
        return;
    else if (nearest.name != NULL)
        say("unrecognized option '%s'; did you mean --%s?", word, nearest.name);
    else
        say("unrecognized option '%s'", word);
}

static bool is_wanted(const struct wanted *wanted, int option) {
    size_t i;
    for (i = 0; i < wanted->count; i++)
        if (wanted->rows[i].val == option)
            return true;
    return false;
}

/* Getopt_long leaves the option in question, or 0 for a long one that it does not know; and the word, if it is the last one of its word. */
static void say_wrong(const struct wanted *wanted, const char *word, int option, int letter) {
    char one[] = {(char)letter, '\0'};
    if (option == ':' && strncmp(word, "--", 2) == 0)
        say("option '%s' requires an argument", word);
    else if (option == ':')
        say("option requires an argument -- '%s'", one);
    else if (letter == 0)
        say_unknown(wanted, word);
    else if (is_wanted(wanted, letter))
        say("option '--%s' doesn't allow an argument", name_of(letter));
    else if (!say_elsewhere("", 0, letter))
        say("invalid option -- '%s'", one);
}

/* An option given again takes the place of the one before, so that an alias can be overruled. */
static enum asked take(struct options *options, const struct wanted *wanted, int option, char **argv) {
    if (option == HELP)
        return ASKED_HELP;
    if (option == VERSION)
        return ASKED_VERSION;
    if (option == '?' || option == ':') {
        say_wrong(wanted, argv[optind - 1], option, optopt);
        return ASKED_WRONGLY;
    }
    if (option < KEEP && is_digit((char)option)) {
        say("-WIDTH must be the first argument; use -w WIDTH");
        return ASKED_WRONGLY;
    }
    options->flags |= row_of(option)->flag;
    options->value[option] = optarg == NULL ? "" : optarg;
    return ASKED_WORK;
}

/* The first argument may be a width with a dash before it, as in GNU's fmt. It is taken, and argv begins one word later. */
static bool takes_width(struct options *options, int argc, char **argv) {
    if (argc < 2 || argv[1][0] != '-' || !is_digit(argv[1][1]))
        return false;
    options->value['w'] = argv[1] + 1;
    argv[1] = argv[0];
    return true;
}

enum asked read_options(struct options *options, const int *takes, int argc, char **argv) {
    struct wanted wanted = wanted_of(takes);
    enum asked asked = ASKED_WORK;
    int option;
    *options = (struct options){0};
    if (wanted.width && takes_width(options, argc, argv))
        argc--, argv++;
    while (asked == ASKED_WORK && (option = getopt_long(argc, argv, wanted.letters, wanted.rows, NULL)) != -1)
        asked = take(options, &wanted, option, argv);
    options->files = argv + optind;
    options->count = argc - optind;
    build_block(options);
    return asked;
}
