/* The panel as a picture, SVG for a screen of 1920 x 1080. A cell is a text of its own at the middle of its place: no font and no character of
 * another width moves a second cell. Letters that join, or are written from the right, are one text in the box of their cells. */
#include "panel.h"

/* A cell is 23 x 40, and so 80 by 24 of them 1840 x 960. */
enum { WIDE = 1920, HIGH = 1080, CELL_WIDE = 23, CELL_HIGH = 40, LEFT = 44, TOP = 12, BASE = 31 };
enum { BELOW_WIDE = 15, BELOW_HIGH = 33, BELOW_BASE = TOP + ROWS * CELL_HIGH + 38 };

const char PICTURE_HEAD[] = "<?xml version=\"1.0\" encoding=\"UTF-8\"?>\n<!-- a panel of rudignals -->\n";

static const char *const CLASS[KINDS] = {[PLAIN] = "", [OVER] = " class=\"over\"", [DAMAGED] = " class=\"damaged\"", [BAR] = " class=\"bar\""};

static void draw_rectangle(FILE *out, int x, int y, int width, int height, const char *class) {
    fprintf(out, "<rect x=\"%d\" y=\"%d\" width=\"%d\" height=\"%d\"%s/>\n", x, y, width, height, class);
}

/* ---- cells */

/* Halves: the middle of one cell is between two dots. */
static void begin_text(FILE *out, int twice_x, int y, const char *class) {
    fprintf(out, "<text x=\"%d%s\" y=\"%d\"%s>", twice_x / 2, twice_x % 2 ? ".5" : "", y, class);
}

static void draw_letter(FILE *out, int twice_x, int y, const char *class, uint32_t character) {
    begin_text(out, twice_x, y, class);
    put_escaped(out, character);
    fputs("</text>\n", out);
}

static void draw_run(FILE *out, const struct panel *panel, int row, int column, int length, enum script script) {
    struct cell first = cell_at(panel, row, column);
    char class[80];
    int i;
    snprintf(class, sizeof class, " class=\"%s%s\" textLength=\"%d\" lengthAdjust=\"spacingAndGlyphs\"", script == FROM_RIGHT ? "rtl" : "run", first.kind == BAR ? " bar" : "", length * CELL_WIDE);
    begin_text(out, 2 * (LEFT + column * CELL_WIDE) + length * CELL_WIDE, TOP + row * CELL_HIGH + BASE, class);
    for (i = 0; i < length; i++)
        put_escaped(out, cell_at(panel, row, column + i).character);
    fputs("</text>\n", out);
}

/* A wide character is in the middle of its two cells. */
static void draw_cell(FILE *out, const struct panel *panel, int row, int column) {
    struct cell cell = cell_at(panel, row, column);
    bool wide = column + 1 < COLUMNS && cell_at(panel, row, column + 1).character == FILLER;
    int x = LEFT + column * CELL_WIDE, y = TOP + row * CELL_HIGH;
    if (cell.kind == OVER || cell.kind == DAMAGED)
        draw_rectangle(out, x, y, CELL_WIDE, CELL_HIGH, CLASS[cell.kind]);
    if (cell.character != FILLER && cell.character != ' ')
        draw_letter(out, 2 * x + (wide ? 2 : 1) * CELL_WIDE, y + BASE, CLASS[cell.kind], cell.character);
}

/* An arrow beside a row that goes on with the line above. */
static void draw_row(FILE *out, const struct panel *panel, int row) {
    enum script script;
    int column, length;
    if (panel->continued[row])
        fprintf(out, "<path class=\"on\" d=\"M10 %dv16h16m-7 -7l7 7l-7 7\"/>\n", TOP + row * CELL_HIGH + 6);
    for (column = 0; column < COLUMNS; column += length) {
        length = run_length(panel, row, column, &script);
        if (length > 1)
            draw_run(out, panel, row, column, length, script);
        else
            draw_cell(out, panel, row, column);
    }
}

/* ---- below them */

static const char *class_below(const struct panel *panel, enum line_below line) {
    if (line == TROUBLE || (panel->bar > 0 && line == COUNTED))
        return " class=\"failed\"";
    return panel->warned && line == COUNTED ? " class=\"warned\"" : " class=\"caption\"";
}

static void draw_below(FILE *out, const struct panel *panel, enum line_below line, int number) {
    int length = below_length(panel, line), column;
    uint32_t character;
    bool wide;
    for (column = 0; column < length; column++) {
        character = below_at(panel, line, column);
        wide = column + 1 < length && below_at(panel, line, column + 1) == FILLER;
        if (character != FILLER && character != ' ')
            draw_letter(out, 2 * (LEFT + column * BELOW_WIDE) + (wide ? 2 : 1) * BELOW_WIDE, BELOW_BASE + number * BELOW_HIGH, class_below(panel, line), character);
    }
}

/* What programs call the picture by, and read aloud. */
static void draw_title(FILE *out, const struct panel *panel) {
    fputs("<title>", out);
    put_below_escaped(out, panel, COUNTED);
    fputs("; ", out);
    put_below_escaped(out, panel, DATED);
    fputs("</title>\n", out);
}

void draw_shapes(FILE *out, const struct panel *panel, const char *const *style) {
    int row;
    fprintf(out, "<svg xmlns=\"http://www.w3.org/2000/svg\" width=\"%d\" height=\"%d\" viewBox=\"0 0 %d %d\">\n", WIDE, HIGH, WIDE, HIGH);
    draw_title(out, panel);
    if (style != NULL) {
        fputs("<style>\n", out);
        for (; *style != NULL; style++)
            fputs(*style, out);
        fputs("</style>\n", out);
    }
    draw_rectangle(out, 0, 0, WIDE, HIGH, " class=\"room\"");
    draw_rectangle(out, LEFT - 8, TOP - 4, COLUMNS * CELL_WIDE + 16, ROWS * CELL_HIGH + 8, " class=\"panel\"");
    if (panel->bar > 0)
        draw_rectangle(out, LEFT - 8, TOP + (ROWS - panel->bar) * CELL_HIGH, COLUMNS * CELL_WIDE + 16, panel->bar * CELL_HIGH + 4, CLASS[BAR]);
    for (row = 0; row < ROWS; row++)
        draw_row(out, panel, row);
    draw_below(out, panel, COUNTED, 0);
    draw_below(out, panel, DATED, 1);
    draw_below(out, panel, TROUBLE, 2);
    fputs("</svg>\n", out);
}

void draw_picture(FILE *out, const struct panel *panel) {
    fputs(PICTURE_HEAD, out);
    draw_shapes(out, panel, PICTURE_STYLE);
}
