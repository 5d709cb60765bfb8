/* What the files of the wall panel share; the page has the first three too. */
#ifndef PANEL_H
#define PANEL_H

#include "digest.h"

#include <stdio.h>
#include <time.h>

/* ---- rows.c: the end of a text as rows of the panel */

enum { ROWS = 24, COLUMNS = 80, FILLER = 0 };

/* Counts of the whole text, in lines. */
struct counts {
    size_t lines;
    size_t blank;         /* with nothing to be seen in them, and nothing but such lines behind them */
    size_t damaged;       /* with a byte that is part of no character */
    size_t cut;           /* that run past the panel's last column, where rows are cut */
    size_t above;         /* that begin above the rows */
    size_t damaged_above; /* damaged ones of these */
};

struct rows {
    struct buffer text;   /* a line for each row */
    int count;            /* of rows */
    bool continued[ROWS]; /* the row goes on with the line of the row above */
    bool cut;             /* a line is one row, and the library cuts it */
    struct counts counts;
};

/* The last rows, at most so many. Blank lines at the end are left out. Lines are folded, or else cut; what there is no memory to fold is cut. */
void find_rows(struct rows *rows, const struct buffer *text, uint64_t tab, bool cut, int most);

/* ---- cells.c: what stands on the panel */

enum { CAPTIONS = 2 };

/* What stands below the cells: two lines; the same in one, where there is no room for two; and what went wrong with a drawing before. */
enum line_below { COUNTED, DATED, BRIEF, TROUBLE, LINES_BELOW };

struct panel {
    uint32_t cells[ROWS * COLUMNS];
    bool continued[ROWS];
    bool cut;    /* a `+' in the last column is a mark */
    int bar;     /* so many rows at the bottom say why there is no digest; 0: there is one */
    bool warned; /* there are damaged lines above the rows */
    bool unwritten; /* a drawing cannot be written now */
    int counted; /* the columns that time and counts take of the one line */
    time_t drawn;
    uint32_t below[LINES_BELOW][COLUMNS];
};

/* Text from the bottom row up; false, with blank cells, if the library refuses the tab width. */
bool put_cells(uint32_t cells[ROWS * COLUMNS], const void *text, size_t length, uint64_t tab);
/* One line of words. */
void put_below(struct panel *panel, enum line_below line, const char *text);

/* How a cell is drawn. OVER is the last one of a line that is cut. */
enum kind { PLAIN, OVER, DAMAGED, BAR, KINDS };
struct cell {
    uint32_t character; /* FILLER, or one that takes no effect where it is drawn */
    enum kind kind;
};
struct cell cell_at(const struct panel *panel, int row, int column);
uint32_t below_at(const struct panel *panel, enum line_below line, int column);
/* How many columns of the line are not blank after it: 0 if there is none. */
int below_length(const struct panel *panel, enum line_below line);
/* Writes a character in UTF-8; and as text of a picture or a page, escaped. */
void put_character(FILE *out, uint32_t character);
void put_escaped(FILE *out, uint32_t character);
void put_below_escaped(FILE *out, const struct panel *panel, enum line_below line);

/* ---- runs.c: cells that are drawn as one text */

/* How a character is beside its neighbours: by itself, or in one text with those of its kind. */
enum script { ALONE, JOINED, FROM_RIGHT };
enum script script_of(uint32_t character);
/* How many columns from this one on are one text: 1 if the cell stands by itself. */
int run_length(const struct panel *panel, int row, int column, enum script *script);

/* ---- wall.c: what every drawing tells */

/* What a drawing is of. */
struct facts {
    const char *label; /* the file's name, in words */
    time_t drawn;
    bool dated; /* the time of the file's last change is known */
    time_t changed;
    size_t mended_lines, mended_bytes; /* so many were mended before it was formatted */
};

/* The facts of a file, `-' being standard input, that is drawn now. */
struct facts facts_of(const char *name);

/* Puts a digest on the panel. */
void put_digest(struct panel *panel, const struct facts *facts, const struct buffer *digest, uint64_t tab, bool cut);
/* Puts there why there is none, and above it the end of the notes as they are, as far as they were read. */
void put_failure(struct panel *panel, const struct facts *facts, enum outcome outcome, const char *reason, const struct buffer *notes, uint64_t tab, bool cut);

/* A drawing that could not be written: what was said, from when and until when. */
struct trouble {
    char *words; /* null: there was none */
    bool lasts;
    time_t since, until;
};
void put_trouble(struct panel *panel, const struct trouble *trouble);

/* ---- frame.c: the panel as text */

struct view {
    bool terminal;     /* colours are seen, and the cursor can be moved */
    bool window;       /* it has a size */
    int columns, rows; /* the window's */
};

/* How standard output is drawn on. */
struct view view_of_output(void);
/* Can the panel be seen there? */
bool fits(const struct view *view);
/* Draws the panel; where it does not fit, in words how much is needed, and nothing else. The last line is not ended. */
void draw_text(FILE *out, const struct panel *panel, const struct view *view);

/* ---- picture.c, html.c: the panel as a picture, and as a page for a wall */

void draw_picture(FILE *out, const struct panel *panel);
void draw_page(FILE *out, const struct panel *panel);
/* The shapes of a picture, for a page. */
void draw_shapes(FILE *out, const struct panel *panel, const char *const *style);

/* A file that begins so may be drawn anew. */
extern const char PICTURE_HEAD[], WALL_HEAD[];

/* ---- wall_assets.c, made by tools/page */

extern const char *const PICTURE_STYLE[], *const WALL_STYLE[], *const WALL_SCRIPT[];
extern const char WALL_STYLE_HASH[], WALL_SCRIPT_HASH[];

/* ---- show.c: one drawing */

/* What is to be shown, and where. */
struct show {
    struct options options;
    const char *name;
    const char *picture, *page; /* null: none */
    bool text, follow, cut;
    struct trouble trouble;
    struct mended mended; /* of the notes in the last drawing */
    bool torn;            /* the last text was written in part */
};

struct drawing {
    int status;    /* WELL: the digest was shown */
    bool written;  /* whatever was shown, all of it was written */
    bool hopeless; /* what was not written never will be */
};

/* Draws what the file has now, on a terminal as a screen of its own. What goes wrong is said. */
struct drawing draw_now(struct show *show, bool whole_screen);
/* Draws, in files alone, that the file is followed no more: a picture that nobody draws again would look like a quiet night. */
struct drawing draw_end(struct show *show);
/* Draws that the options are refused, for the reason that was said: so would be every digest, and an old picture is not to be taken for it. */
void draw_refused_options(struct show *show);

/* ---- follow.c: the panel as long as it is looked at */

/* Draws again whenever the file has changed, and at least every minute, until a signal ends it. Answers the exit status. */
int follow(struct show *show);

#endif
