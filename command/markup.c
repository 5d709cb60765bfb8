/* Bytes as the text of a page, each in its columns, and none of them with an effect.
 *
 * The page decides nothing about characters: where a damaged one stands is asked of rudignals_measure, how many columns one takes of
 * rudignals_panel. Only how it is drawn is decided here. What a browser would take for more than a letter, or would not show, is written
 * as its number in hex; markup is escaped. */
#include "page.h"

#include "damage.h"

#include <string.h>

/* ---- what a text consists of */

/* A character, or a byte that is part of none. */
struct sign {
    const uint8_t *bytes;
    size_t length;
    uint32_t character; /* of a damaged byte: the byte */
    unsigned columns;
    bool damaged;
};

struct reader {
    const uint8_t *bytes;
    size_t length, at;
    size_t damage;    /* where the next damaged byte stands: not before `at`, or the length if there is none */
    struct sign sign; /* the one before `at`, if it is not ended */
    bool ended;
};

/* The length of a well-formed character, by its first byte. */
static size_t length_from(uint8_t first) { return first < 0x80 ? 1 : first < 0xE0 ? 2 : first < 0xF0 ? 3 : 4; }

static uint32_t character_in(const uint8_t *bytes, size_t length) {
    uint32_t character = length == 1 ? bytes[0] : bytes[0] & (0x7Fu >> length);
    size_t i;
    for (i = 1; i < length; i++)
        character = character << 6 | (bytes[i] & 0x3Fu);
    return character;
}

/* A bar after the character stands on the panel in the column that follows it. Each character is asked for once. */
static unsigned columns_of(uint32_t character, const uint8_t *bytes, size_t length) {
    static uint8_t known[0x110000]; /* one more than its columns; 0: not asked for yet */
    uint32_t cells[RUDIGNALS_PANEL_CELLS], *row = cells + RUDIGNALS_PANEL_CELLS - RUDIGNALS_PANEL_COLUMNS;
    uint8_t text[5];
    unsigned column = 2;
    if (known[character] == 0) {
        memcpy(text, bytes, length);
        text[length] = '|';
        rudignals_panel(text, length + 1, 8, cells);
        while (column > 0 && row[column] != '|')
            column--;
        known[character] = (uint8_t)(column + 1);
    }
    return known[character] - 1u;
}

static void read_damaged(struct reader *reader) {
    struct sign *sign = &reader->sign;
    *sign = (struct sign){reader->bytes + reader->at, 1, reader->bytes[reader->at], 1, true};
    reader->at++;
    reader->damage = first_damage(reader->bytes, reader->length, reader->at);
}

static void step(struct reader *reader) {
    struct sign *sign = &reader->sign;
    reader->ended = reader->at == reader->length;
    if (reader->ended)
        return;
    if (reader->at == reader->damage) {
        read_damaged(reader);
        return;
    }
    sign->bytes = reader->bytes + reader->at;
    sign->length = length_from(*sign->bytes);
    sign->character = character_in(sign->bytes, sign->length);
    sign->columns = columns_of(sign->character, sign->bytes, sign->length);
    sign->damaged = false;
    reader->at += sign->length;
}

static struct reader reader_of(const uint8_t *bytes, size_t length) {
    struct reader reader = {.bytes = bytes, .length = length, .damage = first_damage(bytes, length, 0)};
    step(&reader);
    return reader;
}

/* ---- what is drawn as a number */

static bool within(uint32_t character, uint32_t from, uint32_t to) { return character >= from && character <= to; }

/* Takes a column and has no shape, or one that browsers do not show, or begins a line for them; or is no character. */
static bool is_control(uint32_t c) { return c < ' ' || within(c, 0x7F, 0x9F) || c == 0xAD || c == 0x2028 || c == 0x2029 || (c & 0xFFFE) == 0xFFFE; }

/* Is not seen and acts on others: directions, invisible operators, annotations, tags, the mark of byte order. */
static bool acts(uint32_t c) {
    return c == 0x61C || c == 0x180E || c == 0x200B || within(c, 0x200E, 0x200F) || within(c, 0x202A, 0x202E) || within(c, 0x2060, 0x206F) ||
           c == 0xFEFF || within(c, 0xFFF9, 0xFFFB) || within(c, 0xE0000, 0xE0FFF);
}

/* Is not seen, and is to be where every byte is: joins letters, chooses a shape, fills, or is a blank of another kind than the space. */
static bool is_hidden(uint32_t c) {
    return c == 0xA0 || c == 0x34F || c == 0x115F || c == 0x1160 || c == 0x1680 || within(c, 0x2000, 0x200D) || c == 0x202F || c == 0x205F || c == 0x3000 ||
           c == 0x3164 || within(c, 0xFE00, 0xFE0F) || c == 0xFFA0;
}

static bool is_number(const struct sign *sign, bool raw) {
    return sign->damaged || is_control(sign->character) || acts(sign->character) || (raw && is_hidden(sign->character));
}

/* ---- what is drawn as letters */

/* Every fixed-width face has it, in one column. */
static bool is_simple(uint32_t c) { return within(c, ' ', '~') || within(c, 0xA0, 0x17F); }

/* Sits on the letter before it. */
static bool sits(const struct reader *reader, bool raw) { return !reader->ended && reader->sign.columns == 0 && !is_number(&reader->sign, raw); }

static bool carries(struct reader reader, bool raw) {
    step(&reader);
    return sits(&reader, raw);
}

/* Stands in a run: letters that the face may not have, and those that carry marks. A browser shapes them together, as their script asks
 * for, in the columns that they take together. */
static bool in_run(const struct reader *reader, bool raw) {
    const struct sign *sign = &reader->sign;
    if (reader->ended || is_number(sign, raw) || sign->columns == 2)
        return false;
    return !is_simple(sign->character) || carries(*reader, raw);
}

static unsigned put_letter(FILE *out, struct reader *reader) {
    unsigned columns = reader->sign.columns;
    put_escaped(out, reader->sign.character);
    step(reader);
    return columns;
}

/* The style has a class for each count of columns up to MOST_RUN. */
enum { MOST_RUN = 40 };

static unsigned run_columns(struct reader reader, bool raw) {
    unsigned columns = 0;
    for (; in_run(&reader, raw) && columns + reader.sign.columns <= MOST_RUN; step(&reader))
        columns += reader.sign.columns;
    return columns;
}

static unsigned put_run(FILE *out, struct reader *reader, bool raw) {
    unsigned columns = run_columns(*reader, raw), put = 0;
    fprintf(out, "<i class=w%u>", columns);
    while (in_run(reader, raw) && put + reader->sign.columns <= columns)
        put += put_letter(out, reader);
    fputs("</i>", out);
    return columns;
}

/* A Chinese or Japanese character, or a sign of that size: every face has it as a square. */
static bool is_square(const struct reader *reader, bool raw) {
    uint32_t c = reader->sign.character;
    return !reader->ended && reader->sign.columns == 2 && !is_number(&reader->sign, raw) &&
           (within(c, 0x3001, 0x30FF) || within(c, 0x3400, 0x4DBF) || within(c, 0x4E00, 0x9FFF) || within(c, 0xFF01, 0xFF60)) && !carries(*reader, raw);
}

/* Squares that follow each other need no element each: the style spaces them. */
static unsigned put_squares(FILE *out, struct reader *reader, bool raw) {
    struct reader ahead = *reader;
    unsigned columns = 0, put = 0;
    for (; columns < MOST_RUN && is_square(&ahead, raw); step(&ahead))
        columns += 2;
    fprintf(out, "<b class=w%u>", columns);
    while (put < columns)
        put += put_letter(out, reader);
    fputs("</b>", out);
    return columns;
}

static unsigned put_wide(FILE *out, struct reader *reader, bool raw) {
    if (is_square(reader, raw))
        return put_squares(out, reader, raw);
    fputs("<b>", out);
    put_letter(out, reader);
    while (sits(reader, raw))
        put_letter(out, reader);
    fputs("</b>", out);
    return 2;
}

static unsigned put_letters(FILE *out, struct reader *reader, bool raw) {
    if (in_run(reader, raw))
        return put_run(out, reader, raw);
    return reader->sign.columns == 2 ? put_wide(out, reader, raw) : put_letter(out, reader);
}

/* ---- words that are written from the right */

/* The panel knows which words a person reads together (runs.c): so a line that has any is put on one. Words in columns that the panel does not
 * have stand by themselves, and so do those with a number among them. */
static bool has_from_right(struct reader reader, uint64_t columns) {
    uint64_t column = 0;
    enum script script = ALONE;
    for (; !reader.ended && column < columns && script != FROM_RIGHT; step(&reader)) {
        script = script_of(reader.sign.character);
        column += reader.sign.columns;
    }
    return script == FROM_RIGHT;
}

static bool put_on_panel(struct panel *panel, const struct reader *reader, uint64_t tab) {
    if (!has_from_right(*reader, COLUMNS))
        return false;
    *panel = (struct panel){.cut = true};
    return put_cells(panel->cells, reader->bytes, reader->length, tab);
}

static bool has_number(struct reader reader, unsigned columns) {
    unsigned passed = 0;
    for (; !reader.ended && (passed < columns || reader.sign.columns == 0); step(&reader)) {
        if (is_number(&reader.sign, false) || reader.sign.columns == 2)
            return true;
        passed += reader.sign.columns;
    }
    return false;
}

/* How many columns from here on are words from the right; 0: none, or one letter alone. */
static unsigned right_columns(const struct panel *panel, const struct reader *reader, uint64_t column) {
    enum script script = ALONE;
    int length = column < COLUMNS ? run_length(panel, ROWS - 1, (int)column, &script) : 1;
    return length > 1 && script == FROM_RIGHT && !has_number(*reader, (unsigned)length) ? (unsigned)length : 0;
}

static unsigned put_right(FILE *out, struct reader *reader, unsigned columns) {
    unsigned put = 0;
    fprintf(out, "<i class='w%u r'>", columns);
    while (!reader->ended && (put < columns || sits(reader, false)))
        put += put_letter(out, reader);
    fputs("</i>", out);
    return columns;
}

/* ---- lines */

/* A number stands twice: in brackets as text, for whoever reads or copies it, and as the style shows it. */
static void put_number(FILE *out, const char *class, const char *shown, const char *text) { fprintf(out, "<u class='%s' data-x='%s'>[%s]</u>", class, shown, text); }

static bool goes_on(const struct reader *reader, bool damaged, bool raw) {
    return !reader->ended && reader->sign.damaged == damaged && is_number(&reader->sign, raw) && (raw || reader->sign.character != '\t');
}

/* Takes one column, and its number has two digits. */
static bool is_short(const struct sign *sign) { return sign->columns == 1 && sign->character <= 0xFF; }

/* In the digest such signs, as many as follow each other, are one element of their columns, the second digits below the first. */
static unsigned put_short(FILE *out, struct reader *reader) {
    char text[3 * MOST_RUN + 1], shown[2 * MOST_RUN + 2], class[8], number[3];
    bool damaged = reader->sign.damaged;
    unsigned count = 0;
    do {
        snprintf(number, sizeof number, "%02X", (unsigned)reader->sign.character & 0xFFu);
        snprintf(text + 3 * count, 4, "%s ", number);
        shown[count] = number[0];
        shown[MOST_RUN + 1 + count++] = number[1];
        step(reader);
    } while (count < MOST_RUN && goes_on(reader, damaged, false) && is_short(&reader->sign));
    text[3 * count - 1] = '\0';
    shown[count] = '\n';
    memmove(shown + count + 1, shown + MOST_RUN + 1, count);
    shown[2 * count + 1] = '\0';
    snprintf(class, sizeof class, "%c w%u", damaged ? 'd' : 'c', count);
    put_number(out, class, shown, text);
    return count;
}

/* A longer number in one column, or one that takes none and stands above the line. */
static unsigned put_long(FILE *out, struct reader *reader) {
    char text[8], shown[9];
    unsigned columns = reader->sign.columns;
    int length = snprintf(text, sizeof text, "%04X", (unsigned)reader->sign.character), half = columns == 0 ? length : length / 2;
    snprintf(shown, sizeof shown, "%.*s%s%s", half, text, columns == 0 ? "" : "\n", text + half);
    put_number(out, columns == 0 ? "z" : "q", shown, text);
    step(reader);
    return columns;
}

/* Where every byte is seen: the bytes of signs that follow each other. One that is marked stands by itself. */
static void put_bytes(FILE *out, struct reader *reader, bool alone) {
    char text[3 * (MOST_RUN + 4)];
    bool damaged = reader->sign.damaged, feed = reader->sign.character == '\n';
    size_t length = 0, i;
    do {
        for (i = 0; i < reader->sign.length; i++)
            length += (size_t)snprintf(text + length, 4, "%02X ", (unsigned)reader->sign.bytes[i]);
        step(reader);
    } while (!alone && !feed && length < 3 * MOST_RUN && goes_on(reader, damaged, true) && reader->sign.character != '\n');
    text[length - 1] = '\0';
    if (feed)
        fputs("<u class=e>[0A]</u>", out); /* every line has one */
    else
        put_number(out, damaged ? "d" : "c", text, text);
}

static uint64_t stop_behind(uint64_t column, uint64_t tab) { return tab == 0 ? column + 1 : (column / tab + 1) * tab; }

void put_line(FILE *out, const uint8_t *bytes, size_t length, uint64_t tab) {
    struct reader reader = reader_of(bytes, length);
    struct panel panel;
    bool from_right = put_on_panel(&panel, &reader, tab);
    uint64_t column = 0, stop;
    unsigned right;
    while (!reader.ended) {
        right = from_right ? right_columns(&panel, &reader, column) : 0;
        if (right > 0) {
            column += put_right(out, &reader, right);
        } else if (reader.sign.character == '\t') {
            stop = stop_behind(column, tab);
            fprintf(out, "<u class=t>%*s</u>", (int)(stop - column), "");
            column = stop;
            step(&reader);
        } else if (is_number(&reader.sign, false)) {
            column += is_short(&reader.sign) ? put_short(out, &reader) : put_long(out, &reader);
        } else {
            column += put_letters(out, &reader, false);
        }
    }
}

struct look look_at(const uint8_t *bytes, size_t length, uint64_t tab) {
    struct look look = {0, 0};
    struct reader reader = reader_of(bytes, length);
    uint64_t column = 0;
    for (; !reader.ended; step(&reader)) {
        look.damaged += reader.sign.damaged;
        if (reader.sign.character == '\t') {
            column = stop_behind(column, tab);
        } else {
            column += reader.sign.columns;
            look.columns = reader.sign.columns > 0 ? column : look.columns;
        }
    }
    return look;
}

static bool is_blank(uint32_t c) {
    return c == ' ' || within(c, '\t', '\r') || c == 0x85 || c == 0xA0 || c == 0x1680 || within(c, 0x2000, 0x200A) || within(c, 0x2028, 0x2029) || c == 0x202F || c == 0x205F ||
           c == 0x3000;
}

static size_t length_while(const uint8_t *bytes, size_t length, bool blank) {
    struct reader reader = reader_of(bytes, length);
    size_t end = 0;
    for (; !reader.ended && is_blank(reader.sign.character) == blank; step(&reader))
        end = reader.at;
    return end;
}

size_t word_length(const uint8_t *bytes, size_t length) { return length_while(bytes, length, false); }
size_t blank_length(const uint8_t *bytes, size_t length) { return length_while(bytes, length, true); }

void put_raw(FILE *out, const uint8_t *bytes, size_t length, size_t marked) {
    struct reader reader = reader_of(bytes, length);
    while (!reader.ended) {
        const struct sign *sign = &reader.sign;
        bool here = (size_t)(sign->bytes - bytes) == marked;
        fputs(here ? "<mark>" : "", out);
        if (is_number(sign, true))
            put_bytes(out, &reader, here);
        else
            put_letters(out, &reader, true);
        fputs(here ? "</mark>" : "", out);
    }
}

void put_name(FILE *out, const char *name) {
    struct reader reader = reader_of((const uint8_t *)name, strlen(name));
    for (; !reader.ended; step(&reader))
        put_escaped(out, is_number(&reader.sign, true) ? 0xFFFD : reader.sign.character);
}

/* ---- the panel */

static void put_cell(FILE *out, struct cell cell, bool wide) {
    static const char *const CLASS[KINDS] = {[PLAIN] = "", [OVER] = "o", [DAMAGED] = "d", [BAR] = ""};
    if (cell.character == FILLER)
        return;
    if (wide)
        fputs("<b>", out);
    else if (*CLASS[cell.kind] != '\0')
        fprintf(out, "<i class='w1 %s'>", CLASS[cell.kind]);
    else if (!is_simple(cell.character))
        fputs("<i class=w1>", out);
    put_escaped(out, cell.character);
    fputs(wide ? "</b>" : *CLASS[cell.kind] != '\0' || !is_simple(cell.character) ? "</i>" : "", out);
}

/* A browser orders and shapes the letters of a run, in the box of their cells. */
static void put_cell_run(FILE *out, const struct panel *panel, int row, int column, int length, bool from_right) {
    int end = column + length;
    fprintf(out, from_right ? "<i class='w%d r'>" : "<i class=w%d>", length);
    for (; column < end; column++)
        put_escaped(out, cell_at(panel, row, column).character);
    fputs("</i>", out);
}

void put_row(FILE *out, const struct panel *panel, int row) {
    enum script script;
    int column, length;
    for (column = 0; column < COLUMNS; column += length) {
        length = run_length(panel, row, column, &script);
        if (length > 1)
            put_cell_run(out, panel, row, column, length, script == FROM_RIGHT);
        else
            put_cell(out, cell_at(panel, row, column), column + 1 < COLUMNS && cell_at(panel, row, column + 1).character == FILLER);
    }
}
