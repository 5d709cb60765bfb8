/* The end of a text as rows of the panel, and what is counted of the whole.
 *
 * The library folds, and says how many columns a character takes and which byte is damaged. A line is at least one row, so of a long text only
 * as many lines as there are rows need be folded; the counts speak of all of it. */
#include "panel.h"

#include "damage.h"
#include "lines.h"

#include <string.h>

/* A text, or its end. */
struct stretch {
    const uint8_t *bytes; /* never null */
    size_t length;
};

/* ---- lines, from the end */

/* Where the line begins that ends, with its line feed or without one, at a place. */
static size_t line_before(const uint8_t *bytes, size_t end) {
    if (end > 0)
        end--;
    while (end > 0 && bytes[end - 1] != '\n')
        end--;
    return end;
}

static size_t lines_before(const uint8_t *bytes, size_t end, int count) {
    for (; count > 0; count--)
        end = line_before(bytes, end);
    return end;
}

static size_t behind_line(const uint8_t *bytes, size_t length, size_t at) {
    const uint8_t *feed = memchr(bytes + at, '\n', length - at);
    return feed == NULL ? length : (size_t)(feed - bytes) + 1;
}

static size_t lines_in(const uint8_t *bytes, size_t length) { return feeds(bytes, length) + (length > 0 && bytes[length - 1] != '\n'); }

/* ---- lines with nothing to be seen in them */

static bool is_blank(uint32_t character) {
    return character == ' ' || character == FILLER || character == 0xA0 || character == 0x1680 || (character >= 0x2000 && character <= 0x200A) ||
           character == 0x2028 || character == 0x2029 || character == 0x202F || character == 0x205F || character == 0x3000;
}

static bool is_blank_line(const uint8_t *line, size_t length, uint64_t tab) {
    uint32_t cells[ROWS * COLUMNS];
    int column = 0;
    if (length == 1 && *line == '\n')
        return true;
    if (*line > ' ' && *line < 0x7F)
        return false;
    put_cells(cells, line, length, tab);
    while (column < COLUMNS && is_blank(cells[(ROWS - 1) * COLUMNS + column]))
        column++;
    return column == COLUMNS;
}

/* Where the text ends without the blank lines at its end, which are counted. */
static size_t end_of_text(struct stretch text, uint64_t tab, size_t *blank) {
    size_t end = text.length, begin;
    for (*blank = 0; end > 0; (*blank)++) {
        begin = line_before(text.bytes, end);
        if (!is_blank_line(text.bytes + begin, end - begin, tab))
            break;
        end = begin;
    }
    return end;
}

/* ---- folding */

static uint64_t fold_into(struct buffer *out, const uint8_t *bytes, size_t length, uint64_t tab) {
    return rudignals_fold(bytes, length, tab, COLUMNS, out->bytes, out->length);
}

/* Measured first; false if the library or the memory refuses. */
static bool fold(struct buffer *out, const uint8_t *bytes, size_t length, uint64_t tab) {
    uint64_t answer;
    out->length = 0;
    answer = fold_into(out, bytes, length, tab);
    if (rudignals_code_of(answer) == RUDIGNALS_ROOM && buffer_room(out, rudignals_number_of(answer))) {
        out->length = rudignals_number_of(answer);
        answer = fold_into(out, bytes, length, tab);
    }
    return rudignals_code_of(answer) == RUDIGNALS_DONE;
}

/* Does the line run past the panel? The mark is asked for; after a line of 80 columns that ends in the mark's sign nothing is folded. */
static bool runs_over(const uint8_t *line, size_t length, uint64_t tab, struct buffer *room) {
    uint32_t cells[ROWS * COLUMNS];
    if (length <= COLUMNS && memchr(line, '\t', length) == NULL)
        return false;
    put_cells(cells, line, length, tab);
    if (cells[ROWS * COLUMNS - 1] != '+')
        return false;
    while (length > 0 && (line[length - 1] == '\n' || line[length - 1] == '\r' || line[length - 1] == '\t'))
        length--;
    return !fold(room, line, length, tab) || room->length > length;
}

static size_t cut_in(struct stretch text, uint64_t tab) {
    struct lines lines = read_lines(text.bytes, text.length);
    struct buffer room = {0};
    size_t count = 0;
    while (next_line(&lines))
        count += runs_over(lines.line, lines.length, tab, &room);
    buffer_free(&room);
    return count;
}

/* Keeps the last rows of a folded part. A line feed that the part does not have at its place was put in, and what follows goes on with its
 * line. Answers where in the part the first row begins. */
static size_t keep_last(struct rows *rows, struct stretch part, int most) {
    struct buffer *text = &rows->text;
    size_t top = lines_before(text->bytes, text->length, most), at = 0, begin = 0, i;
    bool continued = false, own;
    rows->count = 0;
    for (i = 0; i < text->length; i++) {
        if (i == top)
            begin = at;
        if (i >= top && (i == 0 || text->bytes[i - 1] == '\n'))
            rows->continued[rows->count++] = continued;
        own = at < part.length && part.bytes[at] == text->bytes[i];
        continued = !own;
        at += own;
    }
    text->length -= top;
    if (top > 0)
        memmove(text->bytes, text->bytes + top, text->length);
    return begin;
}

/* Each line as a row. */
static bool copy_lines(struct rows *rows, struct stretch part) {
    rows->text.length = 0;
    rows->count = (int)lines_in(part.bytes, part.length);
    memset(rows->continued, 0, sizeof rows->continued);
    return part.length == 0 || buffer_add(&rows->text, part.bytes, part.length);
}

/* Lines that begin before the first row, and among them the damaged ones; then those of the rest. */
static void count_lines(struct rows *rows, struct stretch text, size_t top) {
    struct counts *counts = &rows->counts;
    bool within = rows->count > 0 && rows->continued[0];
    size_t behind = within ? behind_line(text.bytes, text.length, top) : top;
    counts->above = feeds(text.bytes, top) + within;
    counts->damaged_above = damaged_lines(text.bytes, 0, behind);
    counts->damaged = counts->damaged_above + damaged_lines(text.bytes, behind, text.length);
    counts->lines = lines_in(text.bytes, text.length);
}

void find_rows(struct rows *rows, const struct buffer *buffer, uint64_t tab, bool cut, int most) {
    struct stretch text = {buffer->length == 0 ? (const uint8_t *)"" : buffer->bytes, buffer->length};
    size_t end = end_of_text(text, tab, &rows->counts.blank), top = lines_before(text.bytes, end, most);
    struct stretch part = {text.bytes + top, end - top};
    rows->cut = cut || !fold(&rows->text, part.bytes, part.length, tab);
    if (!rows->cut)
        top += keep_last(rows, part, most);
    else if (!copy_lines(rows, part))
        rows->count = 0;
    rows->counts.cut = rows->cut ? cut_in(text, tab) : 0;
    count_lines(rows, text, top);
}
