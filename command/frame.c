/* The panel as text: rows in a frame, fillers left out, so that wide characters line up. */
#define _POSIX_C_SOURCE 200809L
#include "panel.h"

#include "output.h"

#include <stdlib.h>
#include <string.h>
#include <sys/ioctl.h>
#include <unistd.h>

static const char *const COLOUR[KINDS] = {
    [PLAIN] = "\033[0m", [OVER] = "\033[0;30;43m", [DAMAGED] = "\033[0;1;37;41m", [BAR] = "\033[0;1;37;41m"};
static const char GOING_ON[] = "\033[0;36m", WARNING[] = "\033[0;1;33m", ALARM[] = "\033[0;1;37;41m";

static bool is_terminal(void) {
    const char *kind = getenv("TERM");
    return kind != NULL && strcmp(kind, "dumb") != 0;
}

struct view view_of_output(void) {
    struct view view = {false, false, 0, 0};
    struct winsize size;
    if (!output_is_terminal())
        return view;
    view.terminal = is_terminal();
    view.window = ioctl(STDOUT_FILENO, TIOCGWINSZ, &size) == 0 && size.ws_col > 0 && size.ws_row > 0;
    if (view.window) {
        view.columns = size.ws_col;
        view.rows = size.ws_row;
    }
    return view;
}

/* ---- where the panel is in a window */

/* The cells and one line below them. */
enum { LEAST_ROWS = ROWS + 1 };

bool fits(const struct view *view) { return !view->window || (view->columns >= COLUMNS && view->rows >= LEAST_ROWS); }

/* What is drawn: a frame takes two columns and two rows, a mark beside the cells one column. */
struct plan {
    bool framed, marked, brief;
};

static struct plan plan_of(const struct panel *panel, const struct view *view) {
    int below = CAPTIONS + (below_length(panel, TROUBLE) > 0);
    struct plan plan = {true, true, false};
    if (!view->window)
        return plan;
    plan.framed = view->columns >= COLUMNS + 2 && view->rows >= ROWS + 2 + below;
    plan.marked = view->columns > COLUMNS;
    plan.brief = view->rows < ROWS + below;
    return plan;
}

/* ---- rows */

struct canvas {
    FILE *out;
    const struct panel *panel;
    const struct view *view;
    struct plan plan;
};

static void put_colour(const struct canvas *canvas, const char *colour) {
    if (canvas->view->terminal)
        fputs(colour, canvas->out);
}

/* Terminals do not agree on the width of every character: after one beyond ASCII the cursor is put to the next cell. */
static void draw_character(const struct canvas *canvas, uint32_t character, int next) {
    put_character(canvas->out, character);
    if (canvas->view->terminal && character > '~')
        fprintf(canvas->out, "\033[%dG", next + (canvas->plan.marked ? 2 : 1));
}

/* Where there is no room for a mark beside it, the letters of a row that goes on have another colour. */
static const char *colour_of(const struct canvas *canvas, int row, enum kind kind) {
    return kind == PLAIN && !canvas->plan.marked && canvas->panel->continued[row] ? GOING_ON : COLOUR[kind];
}

static void draw_cells(const struct canvas *canvas, int row) {
    const char *now = COLOUR[PLAIN], *colour;
    struct cell cell;
    int column, next;
    for (column = 0; column < COLUMNS; column = next) {
        cell = cell_at(canvas->panel, row, column);
        for (next = column + 1; next < COLUMNS && cell_at(canvas->panel, row, next).character == FILLER;)
            next++;
        colour = colour_of(canvas, row, cell.kind);
        if (colour != now)
            put_colour(canvas, colour);
        now = colour;
        draw_character(canvas, cell.character == FILLER ? ' ' : cell.character, next);
    }
    if (now != COLOUR[PLAIN])
        put_colour(canvas, COLOUR[PLAIN]);
}

/* Beside the words of a failure the sides are others, and so is the left one of a row that goes on with the line above: no notes can imitate
 * that. */
static char side_of(const struct canvas *canvas, int row, bool left) {
    if (row >= ROWS - canvas->panel->bar)
        return '!';
    if (left && canvas->panel->continued[row])
        return '>';
    return canvas->plan.framed ? '|' : ' ';
}

static void draw_row(const struct canvas *canvas, int row) {
    if (canvas->plan.marked)
        putc(side_of(canvas, row, true), canvas->out);
    draw_cells(canvas, row);
    if (canvas->plan.framed)
        putc(side_of(canvas, row, false), canvas->out);
    putc('\n', canvas->out);
}

static void draw_rule(FILE *out) {
    int i;
    putc('+', out);
    for (i = 0; i < COLUMNS; i++)
        putc('-', out);
    fputs("+\n", out);
}

/* ---- below the rows */

static const char *colour_below(const struct panel *panel, enum line_below line) {
    if (line == TROUBLE || (panel->bar > 0 && line != DATED) || (panel->unwritten && line == BRIEF))
        return ALARM;
    return panel->warned && line != DATED ? WARNING : COLOUR[PLAIN];
}

static void draw_below(const struct canvas *canvas, enum line_below line) {
    const char *colour = colour_below(canvas->panel, line);
    int length = below_length(canvas->panel, line), column;
    if (canvas->plan.marked)
        putc(' ', canvas->out);
    if (colour != COLOUR[PLAIN])
        put_colour(canvas, colour);
    for (column = 0; column < length; column++)
        if (below_at(canvas->panel, line, column) != FILLER)
            put_character(canvas->out, below_at(canvas->panel, line, column));
    if (colour != COLOUR[PLAIN])
        put_colour(canvas, COLOUR[PLAIN]);
}

static void draw_lines_below(const struct canvas *canvas) {
    bool trouble = below_length(canvas->panel, TROUBLE) > 0;
    if (canvas->plan.brief) {
        draw_below(canvas, BRIEF);
        return;
    }
    if (trouble) {
        draw_below(canvas, TROUBLE);
        putc('\n', canvas->out);
    }
    draw_below(canvas, COUNTED);
    putc('\n', canvas->out);
    draw_below(canvas, DATED);
}

/* ---- a window that is too small */

/* Broken between words where that can be had; a word that is wider than the window goes over its edge to the next row. */
static void draw_need(FILE *out, const struct view *view) {
    char text[160];
    int length = snprintf(text, sizeof text, "The panel needs %d columns and %d rows, and this window has %d and %d.", COLUMNS, LEAST_ROWS, view->columns, view->rows);
    int at, end;
    if (view->terminal)
        fputs(ALARM, out);
    for (at = 0; at < length; at = end + (text[end] == ' ')) {
        end = length - at > view->columns ? at + view->columns : length;
        while (end < length && end > at && text[end] != ' ')
            end--;
        if (end == at)
            end = at + view->columns;
        fprintf(out, "%s%.*s", at > 0 ? "\n" : "", end - at, text + at);
    }
    if (view->terminal)
        fputs(COLOUR[PLAIN], out);
}

void draw_text(FILE *out, const struct panel *panel, const struct view *view) {
    struct canvas canvas = {out, panel, view, plan_of(panel, view)};
    int row;
    if (!fits(view)) {
        draw_need(out, view);
        return;
    }
    if (canvas.plan.framed)
        draw_rule(out);
    for (row = 0; row < ROWS; row++)
        draw_row(&canvas, row);
    if (canvas.plan.framed)
        draw_rule(out);
    draw_lines_below(&canvas);
}
