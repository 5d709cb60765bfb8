/* Cells that are drawn as one text: letters that join, and words that are written from the right. */
#include "panel.h"

static bool within(uint32_t character, uint32_t from, uint32_t to) { return character >= from && character <= to; }

/* Hebrew, Arabic, Syriac, Thaana, N'Ko and others; then those of India and its neighbours, whose vowels stand beside, above or before their
 * letter. */
enum script script_of(uint32_t c) {
    if (within(c, 0x590, 0x8FF) || within(c, 0xFB1D, 0xFDFF) || within(c, 0xFE70, 0xFEFC) || within(c, 0x10800, 0x10FFF) || within(c, 0x1E800, 0x1EFFF))
        return FROM_RIGHT;
    if (within(c, 0x900, 0xDFF) || within(c, 0xF00, 0x109F) || within(c, 0x1780, 0x17FF) || within(c, 0x1A20, 0x1AAF) || within(c, 0x1B00, 0x1C4F) ||
        within(c, 0xA800, 0xA82F) || within(c, 0xA880, 0xA8FF) || within(c, 0xA930, 0xA9DF) || within(c, 0xAA00, 0xAADF) || within(c, 0xABC0, 0xABFF) ||
        within(c, 0x11000, 0x11FFF))
        return JOINED;
    return ALONE;
}

/* Signs and digits stand in a word of any script. */
static bool is_sign(uint32_t c) { return within(c, '!', '@') || within(c, '[', '`') || within(c, '{', '~') || within(c, 0xA1, 0xBF) || c == 0x2026; }

/* What is between two blanks, or up to a cell of another kind; nothing at all where a blank stands. */
struct word {
    int end;
    bool from_right, digits, other; /* what it has: other letters are neither signs nor written from the right */
};

static struct word word_at(const struct panel *panel, int row, int column) {
    struct word word = {column, false, false, false};
    struct cell first = cell_at(panel, row, column), cell = first;
    while (word.end < COLUMNS && (cell = cell_at(panel, row, word.end)).kind == first.kind && cell.character != ' ') {
        if (script_of(cell.character) == FROM_RIGHT)
            word.from_right = true;
        else if (!is_sign(cell.character))
            word.other = true;
        word.digits = word.digits || within(cell.character, '0', '9');
        word.end++;
    }
    return word;
}

static int same_script(const struct panel *panel, int row, int column) {
    struct cell first = cell_at(panel, row, column), cell = first;
    int end = column;
    while (end < COLUMNS && (cell = cell_at(panel, row, end)).kind == first.kind && script_of(cell.character) == script_of(first.character))
        end++;
    return end;
}

/* 1 for a bracket that opens, -1 for one that closes. */
static int bracket(const struct panel *panel, int row, int column) {
    uint32_t c = cell_at(panel, row, column).character;
    return (c == '(' || c == '[' || c == '{') - (c == ')' || c == ']' || c == '}');
}

/* Is a bracket of the row open where a column begins? */
static bool is_open_before(const struct panel *panel, int row, int column) {
    int open = 0, at;
    for (at = 0; at < column; at++)
        if (open + bracket(panel, row, at) >= 0)
            open += bracket(panel, row, at);
    return open > 0;
}

/* A bracket that was opened before the words closes after them. */
static int before_closing(const struct panel *panel, int row, int column, int end) {
    int open = 0, at;
    if (!is_open_before(panel, row, column))
        return end;
    for (at = column; at < end && open >= 0; at++)
        open += bracket(panel, row, at);
    return open < 0 ? at - 1 : end;
}

/* Words that are written from the right, one blank apart, and numbers after them: a person reads them together. Of a word that has other
 * letters too, only those up to them. */
static int end_from_right(const struct panel *panel, int row, int column) {
    struct word word = word_at(panel, row, column);
    int end = column;
    if (!word.from_right)
        return column;
    while (!word.other && (word.from_right || word.digits)) {
        end = word.end;
        if (end + 1 >= COLUMNS || cell_at(panel, row, end).character != ' ')
            break;
        word = word_at(panel, row, end + 1);
    }
    if (end == column && script_of(cell_at(panel, row, column).character) == FROM_RIGHT)
        end = same_script(panel, row, column);
    return before_closing(panel, row, column, end);
}

int run_length(const struct panel *panel, int row, int column, enum script *script) {
    struct cell cell = cell_at(panel, row, column);
    bool begins = column == 0 || cell_at(panel, row, column - 1).character == ' ';
    int end = column;
    *script = script_of(cell.character);
    if (*script == JOINED)
        end = same_script(panel, row, column);
    else if (*script == FROM_RIGHT || (begins && is_sign(cell.character)))
        end = end_from_right(panel, row, column), *script = FROM_RIGHT;
    return end - column > 1 ? end - column : 1;
}
