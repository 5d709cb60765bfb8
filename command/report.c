/* The audit's report. Notes, digests and names stand in it as text alone, by markup.c, and in no attribute, style or script, as on the
 * operator's page; pairs are linked to by their numbers. */
#define _POSIX_C_SOURCE 200809L
#include "report.h"

#include "lines.h"
#include "numbers.h"
#include "page.h"

#include <errno.h>
#include <stdlib.h>
#include <string.h>

static const size_t NO_MARK = (size_t)-1;

/* How a verdict is coloured: g(ood), a(mber), r(ed). */
static const char *const CLASS[VERDICTS] = {
    [CARRIED] = "g", [LAYOUT] = "a", [MISSING] = "r", [ADDED] = "a", [BOTH] = "r", [NO_DIGEST] = "r", [NO_NOTES] = "a", [UNJUDGED] = "a",
};

/* The day that a pair's name holds, and what was found. */
struct day {
    int year, month, day; /* a year of 0: none */
    enum verdict verdict;
};

/* ---- dates in names */

static bool digits(const char *at, int count, int *number) {
    int i;
    *number = 0;
    for (i = 0; i < count; i++) {
        if (at[i] < '0' || at[i] > '9')
            return false;
        *number = *number * 10 + (at[i] - '0');
    }
    return true;
}

static bool parts(char letter) { return letter != '\0' && strchr("-_./", letter) != NULL; }
static bool is_digit(char letter) { return letter >= '0' && letter <= '9'; }

static int days_of(int year, int month) {
    static const int DAYS[] = {31, 28, 31, 30, 31, 30, 31, 31, 30, 31, 30, 31};
    bool leap = (year % 4 == 0 && year % 100 != 0) || year % 400 == 0;
    return DAYS[month - 1] + (leap && month == 2);
}

/* 2025-01-31, 2025/01/31 and their like, or 20250131; no digit before or after it. */
static bool date_at(const char *at, struct day *day) {
    bool wide;
    if (!digits(at, 4, &day->year) || day->year < 1970 || day->year > 2199)
        return false;
    wide = parts(at[4]);
    at += 4 + wide;
    if (!digits(at, 2, &day->month) || day->month < 1 || day->month > 12 || parts(at[2]) != wide)
        return false;
    at += 2 + wide;
    return digits(at, 2, &day->day) && day->day >= 1 && day->day <= days_of(day->year, day->month) && !is_digit(at[2]);
}

/* The last one of the name counts: the file's own rather than its folder's. */
static struct day day_in(const char *name, enum verdict verdict) {
    struct day found = {0, 0, 0, verdict}, tried = found;
    const char *at;
    for (at = name; *at != '\0'; at++)
        if ((at == name || !is_digit(at[-1])) && date_at(at, &tried)) {
            found = tried;
            found.verdict = verdict;
        }
    return found;
}

static bool add_day(struct report *report, struct day day) {
    size_t room = report->room == 0 ? 512 : 2 * report->room;
    struct day *wider;
    if (report->length == report->room) {
        wider = realloc(report->days, room * sizeof *wider);
        if (wider == NULL)
            return false;
        report->days = wider;
        report->room = room;
    }
    report->days[report->length++] = day;
    return true;
}

/* ---- a pair */

static void put_text(FILE *out, const char *text) { put_raw(out, (const uint8_t *)text, strlen(text), NO_MARK); }

static void put_plain(FILE *out, const struct buffer *text) { put_raw(out, text->bytes, text->length, NO_MARK); }

/* Of a long text the lines about those with a mark are shown, of any other all. */
enum { SHOWN_WHOLE = 262144, ABOUT = 5 };

/* One text with its words, of which some are marked; the line that a checker names is marked whole. */
struct side {
    const struct buffer *text;
    const struct sequence *words; /* null: none is marked */
    size_t line;                  /* from 1, or 0 */
};

static bool is_near(const struct side *side, size_t first, size_t number) {
    size_t i;
    if (side->line > 0 && number + ABOUT >= side->line && number <= side->line + ABOUT)
        return true;
    for (i = first; side->words != NULL && i < side->words->length && side->words->inks[i].line <= number + ABOUT; i++)
        if (!side->words->matched[i])
            return true;
    return false;
}

/* The first word that can matter for a line: so far back that the lines before it are seen, too. */
static size_t words_near(const struct side *side, size_t from, size_t number) {
    while (side->words != NULL && from < side->words->length && side->words->inks[from].line + ABOUT < number)
        from++;
    return from;
}

/* A line, its lost words in marks. `word` is the first of its words or of a later line; answers the first after it. */
static size_t put_marked(FILE *out, const struct side *side, const uint8_t *line, size_t length, size_t number, size_t word) {
    const uint8_t *at = line;
    const struct ink *ink;
    for (; side->words != NULL && word < side->words->length && side->words->inks[word].line <= number; word++) {
        ink = &side->words->inks[word];
        if (ink->line < number || side->words->matched[word])
            continue;
        put_raw(out, at, (size_t)(ink->bytes - at), NO_MARK);
        fputs("<mark>", out);
        put_raw(out, ink->bytes, ink->length, NO_MARK);
        fputs("</mark>", out);
        at = ink->bytes + ink->length;
    }
    put_raw(out, at, (size_t)(line + length - at), NO_MARK);
    return word;
}

static void put_side(FILE *out, const struct side *side, const char *title) {
    struct lines lines = read_lines(side->text->bytes, side->text->length);
    size_t near = 0, word = 0;
    bool all = side->text->length <= SHOWN_WHOLE, gap = false;
    fprintf(out, "<div><h3>%s</h3><ol>", title);
    while (next_line(&lines)) {
        near = words_near(side, near, lines.number);
        if (!all && !is_near(side, near, lines.number)) {
            gap = true;
            continue;
        }
        fprintf(out, gap ? "<li class=gap>&hellip;<li value=%lu%s>" : "<li value=%lu%s>", lines.number, lines.number == side->line ? " class=at" : "");
        gap = false;
        word = put_marked(out, side, lines.line, lines.length - lines.fed, lines.number, word);
        fputs(lines.fed ? "\n" : "<small> (no line feed)</small>\n", out);
    }
    fprintf(out, "</ol>%s</div>", side->text->length == 0 ? "<p>The file is empty.</p>" : gap ? "<p>&hellip;</p>" : "");
}

static void put_texts(FILE *out, const struct audit *audit, const struct audited *row) {
    struct matching m = {0};
    struct inks notes = inks_of(&audit->terms.heads, row->notes.bytes, row->notes.length, true), digest = inks_of(&audit->terms.heads, row->digest.bytes, row->digest.length, true);
    enum verdict verdict = row->finding.verdict;
    bool marked = (verdict == MISSING || verdict == ADDED || verdict == BOTH) && match(&m, notes, digest);
    struct side left = {&row->notes, marked ? &m.left : NULL, 0}, right = {&row->digest, marked ? &m.right : NULL, verdict == LAYOUT ? row->finding.line : 0};
    fputs("<div class=two>", out);
    if (verdict != NO_NOTES && row->pair->notes != NULL)
        put_side(out, &left, "Notes");
    if (verdict != NO_DIGEST && row->pair->digest != NULL)
        put_side(out, &right, "Digest");
    fputs("</div>\n", out);
    free_matching(&m);
}

static bool has_texts(const struct audited *row) { return row->notes.length + row->digest.length > 0; }

static void put_pair(FILE *out, const struct audit *audit, const struct audited *row, size_t number, const struct buffer *words) {
    fprintf(out, "<details id=p%zu class=%s><summary>", number, CLASS[row->finding.verdict]);
    put_plain(out, words);
    fputs("</summary>\n", out);
    if (has_texts(row))
        put_texts(out, audit, row);
    fputs("</details>\n", out);
}

bool begin_report(struct report *report) {
    *report = (struct report){.well = true};
    report->pairs = open_memstream(&report->pairs_bytes, &report->pairs_length);
    return report->pairs != NULL;
}

void report_pair(struct report *report, const struct audit *audit, const struct audited *row) {
    struct buffer words = {0};
    if (!add_day(report, day_in(row->pair->key, row->finding.verdict)))
        report->well = false;
    if (row->finding.verdict == CARRIED)
        return;
    if (add_line(&words, row)) {
        words.length -= words.length > 0; /* the line feed at its end */
        put_pair(report->pairs, audit, row, report->length, &words);
    } else {
        report->well = false;
    }
    buffer_free(&words);
}

/* ---- the year at a glance */

static int worse(enum verdict verdict) {
    static const int RANK[VERDICTS] = {[CARRIED] = 0, [LAYOUT] = 1, [ADDED] = 2, [NO_NOTES] = 3, [UNJUDGED] = 4, [NO_DIGEST] = 5, [BOTH] = 6, [MISSING] = 7};
    return RANK[verdict];
}

/* By Zeller: 0 is Monday. */
static int weekday_of(int year, int month, int day) {
    int m = month < 3 ? month + 12 : month, y = month < 3 ? year - 1 : year;
    return (day + (13 * (m + 1)) / 5 + y + y / 4 - y / 100 + y / 400 + 5) % 7;
}

/* The worst pair of a day, or null. */
static const struct day *worst_of(const struct report *report, int year, int month, int day) {
    const struct day *worst = NULL;
    size_t i;
    for (i = 0; i < report->length; i++) {
        const struct day *row = &report->days[i];
        if (row->year == year && row->month == month && row->day == day && (worst == NULL || worse(row->verdict) > worse(worst->verdict)))
            worst = row;
    }
    return worst;
}

static void put_square(FILE *out, const struct report *report, const struct day *row, int day) {
    if (row == NULL)
        fprintf(out, "<i>%d</i>", day);
    else if (row->verdict == CARRIED)
        fprintf(out, "<b class=g>%d</b>", day);
    else
        fprintf(out, "<a class=%s href=#p%zu>%d</a>", CLASS[row->verdict], (size_t)(row - report->days) + 1, day);
}

static void put_month(FILE *out, const struct report *report, int year, int month) {
    static const char *const NAMES[] = {"January", "February", "March", "April", "May", "June", "July", "August", "September", "October", "November", "December"};
    int day, blanks = weekday_of(year, month, 1);
    fprintf(out, "<div class=month><h3>%s</h3><div class=days><u>M</u><u>T</u><u>W</u><u>T</u><u>F</u><u>S</u><u>S</u>", NAMES[month - 1]);
    while (blanks-- > 0)
        fputs("<s></s>", out);
    for (day = 1; day <= days_of(year, month); day++)
        put_square(out, report, worst_of(report, year, month, day), day);
    fputs("</div></div>\n", out);
}

static bool in_month(const struct report *report, int year, int month) {
    size_t i;
    for (i = 0; i < report->length; i++)
        if (report->days[i].year == year && report->days[i].month == month)
            return true;
    return false;
}

/* Every year that a name holds, its months from the first to the last that has a pair. */
static bool put_calendar(FILE *out, const struct report *report) {
    int year, month, last;
    bool put = false;
    for (year = 1970; year <= 2199; year++) {
        for (month = 1; month <= 12 && !in_month(report, year, month);)
            month++;
        for (last = 12; last >= month && !in_month(report, year, last);)
            last--;
        if (month > 12)
            continue;
        put = true;
        fprintf(out, "<section class=year aria-label='The year %d'><h2>%d</h2><div class=months>\n", year, year);
        for (; month <= last; month++)
            put_month(out, report, year, month);
        fputs("</div></section>\n", out);
    }
    return put;
}

static bool all_dated(const struct report *report) {
    size_t i;
    for (i = 0; i < report->length; i++)
        if (report->days[i].year == 0)
            return false;
    return report->length > 0;
}

/* Squares without dates: a square a pair, in the order of the names. */
static void put_squares(FILE *out, const struct report *report) {
    size_t i;
    if (report->length == 0)
        return;
    fputs("<section class=year aria-label='All pairs'><h2>All pairs</h2><div class=row>\n", out);
    for (i = 0; i < report->length; i++) {
        enum verdict verdict = report->days[i].verdict;
        if (verdict == CARRIED)
            fputs("<b class=g></b>", out);
        else
            fprintf(out, "<a class=%s href=#p%zu>%zu</a>", CLASS[verdict], i + 1, i + 1);
    }
    fputs("</div></section>\n", out);
}

/* ---- the page */

static void put_lines(FILE *out, const char *const *lines) {
    for (; *lines != NULL; lines++)
        fputs(*lines, out);
}

static void put_head(FILE *out) {
    fputs("\xEF\xBB\xBF<!doctype html>\n<html lang=en>\n<meta charset=utf-8>\n", out);
    fprintf(out, "<meta http-equiv=Content-Security-Policy content=\"default-src 'none'; style-src 'sha256-%s'; script-src 'sha256-%s'; base-uri 'none'; form-action 'none'\">\n",
            REPORT_STYLE_HASH, REPORT_SCRIPT_HASH);
    fputs("<meta name=viewport content='width=device-width, initial-scale=1'>\n<meta name=color-scheme content='light dark'>\n<meta name=referrer content=no-referrer>\n"
          "<title>Audit of digests</title>\n<style>",
          out);
    put_lines(out, REPORT_STYLE);
    fputs("</style>\n<script>", out);
    put_lines(out, REPORT_SCRIPT);
    fputs("</script>\n<body>\n<p id=cut role=alert>This page is not whole: it is still being read, or it was cut short.</p>\n", out);
}

static void put_tiles(FILE *out, const struct audit *audit) {
    enum verdict verdict;
    char room[GROUPED];
    fputs("<ul id=counts>", out);
    for (verdict = CARRIED; verdict < VERDICTS; verdict++)
        if (audit->counts[verdict] > 0)
            fprintf(out, "<li class=%s><strong>%s</strong> %s\n", CLASS[verdict], in_thousands(audit->counts[verdict], room), VERDICT_WORDS[verdict]);
    fputs("</ul>\n", out);
}

static void put_title(FILE *out, const struct audit *audit, const char *notes, const char *digests, const char *time) {
    char room[GROUPED];
    fputs("<header id=top><h1>Audit of <span class=name>", out);
    put_text(out, digests);
    fputs("</span> against <span class=name>", out);
    put_text(out, notes);
    fprintf(out, "</span></h1>\n<p>%s %s, %s</p>\n", in_thousands(audit->pairs.length, room), audit->pairs.length == 1 ? "pair" : "pairs", time);
    put_tiles(out, audit);
    fputs("</header>\n", out);
}

static const char KEYS[] = "<footer><kbd>n</kbd> next, <kbd>p</kbd> previous pair that is not carried, <kbd>Enter</kbd> opens or closes it, <kbd>Esc</kbd> closes all</footer>\n";

bool end_report(struct report *report, const struct audit *audit, const char *notes, const char *digests, const char *time, struct buffer *page) {
    char *bytes = NULL;
    size_t length = 0, wrong = audit->pairs.length - audit->counts[CARRIED];
    FILE *out = open_memstream(&bytes, &length);
    bool well = out != NULL;
    well = fclose(report->pairs) == 0 && report->well && well;
    if (well) {
        put_head(out);
        put_title(out, audit, notes, digests, time);
        if (!all_dated(report) || !put_calendar(out, report))
            put_squares(out, report);
        fprintf(out, "<main id=pairs aria-label='Pairs that are not carried'><h2>%s</h2>\n", wrong == 0 ? "Every digest carries its notes" : "Pairs that are not carried");
        fwrite(report->pairs_bytes, 1, report->pairs_length, out);
        fputs("</main>\n", out);
        fputs(wrong == 0 ? "" : KEYS, out);
        fputs("<i id=end></i>\n", out);
    }
    well = (out == NULL || fclose(out) == 0) && well;
    if (!well && errno == 0)
        errno = ENOMEM;
    well = well && buffer_add(page, bytes, length);
    free(bytes);
    free(report->pairs_bytes);
    free(report->days);
    return well;
}
