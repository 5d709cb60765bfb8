/* What stands on the wall panel, cell by cell.
 *
 * Every cell comes from the library, those of our own words and of a file's name too. So what is drawn is a code point for each cell, and
 * nothing in notes or names can do more than be seen. */
#include "panel.h"

#include <string.h>

bool put_cells(uint32_t cells[ROWS * COLUMNS], const void *text, size_t length, uint64_t tab) {
    return rudignals_code_of(rudignals_panel(text, length, tab, cells)) == RUDIGNALS_DONE;
}

void put_below(struct panel *panel, enum line_below line, const char *text) {
    uint32_t cells[ROWS * COLUMNS];
    put_cells(cells, text, strlen(text), 8);
    memcpy(panel->below[line], cells + (ROWS - 1) * COLUMNS, sizeof panel->below[line]);
}

/* ---- cells as they are drawn */

/* The library gives no control character. Two separators would begin a line where a program takes them for that, and have no shape; a soft
 * hyphen has one, which many programs do not show; the last two of the first plane cannot stand in XML. */
static uint32_t harmless(uint32_t character) {
    if (character == FILLER)
        return FILLER;
    if (character < ' ' || (character >= 0x7F && character <= 0x9F) || character == 0x2028 || character == 0x2029)
        return ' ';
    if (character == 0xAD)
        return '-';
    if ((character >= 0xD800 && character <= 0xDFFF) || character == 0xFFFE || character == 0xFFFF || character > 0x10FFFF)
        return 0xFFFD;
    return character;
}

struct cell cell_at(const struct panel *panel, int row, int column) {
    struct cell cell = {harmless(panel->cells[row * COLUMNS + column]), PLAIN};
    if (row >= ROWS - panel->bar)
        cell.kind = BAR;
    else if (cell.character == 0xFFFD)
        cell.kind = DAMAGED;
    else if (panel->cut && cell.character == '+' && column == COLUMNS - 1)
        cell.kind = OVER;
    return cell;
}

uint32_t below_at(const struct panel *panel, enum line_below line, int column) { return harmless(panel->below[line][column]); }

int below_length(const struct panel *panel, enum line_below line) {
    int length = COLUMNS;
    while (length > 0 && (panel->below[line][length - 1] == ' ' || panel->below[line][length - 1] == FILLER))
        length--;
    return length < COLUMNS && length > 0 && panel->below[line][length] == FILLER ? length + 1 : length;
}

void put_character(FILE *out, uint32_t character) {
    if (character < 0x80) {
        putc((int)character, out);
        return;
    }
    if (character < 0x800) {
        putc((int)(0xC0 | character >> 6), out);
    } else {
        if (character < 0x10000) {
            putc((int)(0xE0 | character >> 12), out);
        } else {
            putc((int)(0xF0 | character >> 18), out);
            putc((int)(0x80 | (character >> 12 & 0x3F)), out);
        }
        putc((int)(0x80 | (character >> 6 & 0x3F)), out);
    }
    putc((int)(0x80 | (character & 0x3F)), out);
}

void put_escaped(FILE *out, uint32_t character) {
    switch (character) {
    case '<': fputs("&lt;", out); break;
    case '>': fputs("&gt;", out); break;
    case '&': fputs("&amp;", out); break;
    case '"': fputs("&quot;", out); break;
    case '\'': fputs("&#39;", out); break;
    default: put_character(out, character);
    }
}

void put_below_escaped(FILE *out, const struct panel *panel, enum line_below line) {
    int length = below_length(panel, line), column;
    for (column = 0; column < length; column++)
        if (below_at(panel, line, column) != FILLER)
            put_escaped(out, below_at(panel, line, column));
}
