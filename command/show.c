/* One drawing of the panel: the file is read and formatted, the panel made, and written wherever it is to be seen. */
#define _POSIX_C_SOURCE 200809L
#include "panel.h"

#include "drawn.h"
#include "output.h"
#include "say.h"
#include "whole.h"

#include <errno.h>
#include <stdlib.h>
#include <string.h>
#include <sys/stat.h>
#include <unistd.h>

/* ---- the notes and their digest */

/* A pipe cannot be read again, and would be waited for with the signals blocked. */
static bool can_be_followed(const char *name) {
    struct stat about;
    return stat(name, &about) != 0 || S_ISREG(about.st_mode);
}

/* Of refused notes the end is shown: what was not looked at any more is read as well. */
static bool read_window(struct window *window, const struct options *options, struct digest *digest) {
    if (!make_digest(digest, options, window))
        return false;
    while (digest->refusal.code != RUDIGNALS_DONE && !window->ended) {
        window->length = 0;
        if (!fill_window(window, MOST_PART))
            return false;
    }
    return true;
}

static enum outcome read_digest(const struct show *show, struct digest *digest, struct buffer *notes) {
    static struct window window;
    bool whole = false;
    int reason;
    notes->length = 0;
    window.kept = notes;
    window.mends = show->options.value[SALVAGE] != NULL;
    if (open_window(&window, show->name)) {
        whole = read_window(&window, &show->options, digest);
        reason = errno; /* closing may put another in its place */
        close_window(&window);
        errno = reason;
    }
    if (!whole) {
        say_failure(label_of(show->name), errno);
        return NOT_READ;
    }
    if (digest->refusal.code == RUDIGNALS_DONE)
        return MADE;
    say_refusal(label_of(show->name), &digest->refusal);
    return REFUSED;
}

static enum outcome read_shown(const struct show *show, struct digest *digest, struct buffer *notes) {
    if (!show->follow || can_be_followed(show->name))
        return read_digest(show, digest, notes);
    say("%s: is no file that can be followed", show->name);
    return NOT_READ;
}

/* ---- what could not be written */

/* A full disk is emptied, and a file system comes back; these do not pass. */
static bool is_hopeless(int reason) {
    static const int HOPELESS[] = {EISDIR, ENOTDIR, ENAMETOOLONG, ELOOP, EINVAL, EBADF, EPIPE};
    size_t i;
    for (i = 0; i < sizeof HOPELESS / sizeof HOPELESS[0]; i++)
        if (reason == HOPELESS[i])
            return true;
    return false;
}

/* It is told in every drawing that follows, as long as it lasts and for an hour after. */
enum { TOLD = 3600 };

static void forget_trouble(struct trouble *trouble) {
    free(trouble->words);
    *trouble = (struct trouble){0};
}

static void note_trouble(struct trouble *trouble, time_t now) {
    if (!trouble->lasts) {
        forget_trouble(trouble);
        trouble->since = now;
        trouble->words = words("%s", last_said());
    }
    trouble->lasts = true;
}

static void age_trouble(struct trouble *trouble, time_t now) {
    if (trouble->lasts)
        trouble->until = now;
    else if (trouble->words != NULL && now - trouble->until > TOLD)
        forget_trouble(trouble);
}

/* ---- where it is written */

/* Nothing that an operator wrote goes missing: a file that is there and is no drawing of ours is not written over. */
static bool may_write_over(const char *name, const char *head) {
    char found[128] = "";
    size_t wanted = strlen(head), length = 0;
    struct stat about;
    FILE *file;
    if (stat(name, &about) != 0 || !S_ISREG(about.st_mode) || about.st_size == 0)
        return true;
    if ((file = fopen(name, "rb")) != NULL) {
        length = fread(found, 1, wanted, file);
        fclose(file);
    }
    return length == wanted && memcmp(found, head, wanted) == 0;
}

static const char STANDARD[] = "standard output";

/* Answers 0, or the system's reason. What was written in part is begun anew on a line of its own. */
static int write_standard(struct show *show, const char *bytes, size_t length) {
    ssize_t put;
    if (show->torn && !isatty(STDOUT_FILENO) && write(STDOUT_FILENO, "\n", 1) < 0)
        return errno;
    show->torn = false;
    while (length > 0) {
        put = write(STDOUT_FILENO, bytes, length);
        if (put < 0 && errno != EINTR)
            return errno;
        if (put > 0)
            bytes += put, length -= (size_t)put, show->torn = length > 0;
    }
    return 0;
}

/* What is known of a drawing while it is written to one place after the other. */
static void tell(struct drawing *drawing, const char *name, int reason) {
    if (reason == 0)
        return;
    say_failure(name, reason);
    drawing->written = false;
    drawing->hopeless = drawing->hopeless || is_hopeless(reason) || (reason == EIO && strcmp(name, STANDARD) == 0);
}

/* One drawing goes out as everything else does, into a file if so asked. */
static void put_standard(struct show *show, struct drawing *drawing, const struct sheet *sheet) {
    if (show->follow)
        tell(drawing, STANDARD, write_standard(show, sheet->bytes, sheet->length));
    else if (!draw_out(sheet->bytes, sheet->length) || !flush_out())
        drawing->written = false;
}

static void write_sheet(struct show *show, struct drawing *drawing, const char *name, const char *head, const struct sheet *sheet) {
    if (strcmp(name, "-") == 0)
        put_standard(show, drawing, sheet);
    else if (may_write_over(name, head))
        tell(drawing, name, write_whole(name, sheet->bytes, sheet->length) ? 0 : errno);
    else {
        say("%s: is there and is no %s; it is not written over", name, head == PICTURE_HEAD ? "picture of a panel" : "page of a wall");
        drawing->written = false;
        drawing->hopeless = true;
    }
}

static void draw_file(struct show *show, struct drawing *drawing, const struct panel *panel, const char *name, const char *head,
                      void (*draw)(FILE *, const struct panel *)) {
    struct sheet sheet;
    if (name == NULL)
        return;
    if (!open_sheet(&sheet)) {
        tell(drawing, name, ENOMEM);
        return;
    }
    draw(sheet.out, panel);
    if (close_sheet(&sheet))
        write_sheet(show, drawing, name, head, &sheet);
    else
        tell(drawing, name, ENOMEM);
    free(sheet.bytes);
}

/* In a window that is too small for the panel no digest is shown. What is drawn there says why, so that it is not said beside it. */
static void tell_small(struct drawing *drawing, const struct view *view) {
    bool before = silent;
    silent = true;
    say("the panel needs a larger window than one of %d columns and %d rows", view->columns, view->rows);
    silent = before;
    drawing->status = FAILED;
}

/* After the last line of a screen stands no line feed, which would move it. */
static void draw_output(struct show *show, struct drawing *drawing, const struct panel *panel, bool whole_screen) {
    struct view view = view_of_output();
    bool screen = whole_screen && view.terminal;
    struct sheet sheet;
    if (!open_sheet(&sheet)) {
        tell(drawing, STANDARD, ENOMEM);
        return;
    }
    fputs(screen ? "\033[H\033[2J" : "", sheet.out);
    draw_text(sheet.out, panel, &view);
    fputs(screen ? "" : "\n", sheet.out);
    if (close_sheet(&sheet))
        put_standard(show, drawing, &sheet);
    else
        tell(drawing, STANDARD, ENOMEM);
    if (!fits(&view))
        tell_small(drawing, &view);
    free(sheet.bytes);
}

/* Files first: a terminal then shows what went wrong with them. */
static void write_panel(struct show *show, struct drawing *drawing, struct panel *panel, bool text, bool whole_screen) {
    age_trouble(&show->trouble, panel->drawn);
    put_trouble(panel, &show->trouble);
    draw_file(show, drawing, panel, show->picture, PICTURE_HEAD, draw_picture);
    draw_file(show, drawing, panel, show->page, WALL_HEAD, draw_page);
    if (!drawing->written) {
        note_trouble(&show->trouble, panel->drawn);
        age_trouble(&show->trouble, panel->drawn);
        put_trouble(panel, &show->trouble);
    }
    if (text)
        draw_output(show, drawing, panel, whole_screen);
    if (!drawing->written)
        note_trouble(&show->trouble, panel->drawn);
    show->trouble.lasts = !drawing->written;
    if (!drawing->written)
        drawing->status = FAILED;
}

/* ---- drawings */

/* The notes that are shown are those that were formatted. */
static void mend_shown(struct show *show, struct buffer *notes, struct facts *facts) {
    if (show->options.value[SALVAGE] == NULL)
        return;
    if (!mend_notes(notes, &show->mended))
        notes->length = 0;
    facts->mended_lines = show->mended.lines;
    facts->mended_bytes = show->mended.bytes;
}

struct drawing draw_now(struct show *show, bool whole_screen) {
    static struct digest digest;
    static struct buffer notes;
    static struct panel panel;
    struct drawing drawing = {WELL, true, false};
    struct facts facts = facts_of(show->name);
    enum outcome outcome = read_shown(show, &digest, &notes);
    uint64_t tab = tab_of(&show->options);
    mend_shown(show, &notes, &facts);
    if (outcome == MADE) {
        put_digest(&panel, &facts, &digest.text, tab, show->cut);
    } else {
        put_failure(&panel, &facts, outcome, last_said(), &notes, tab, show->cut);
        drawing.status = FAILED;
    }
    write_panel(show, &drawing, &panel, show->text, whole_screen);
    return drawing;
}

struct drawing draw_end(struct show *show) {
    static struct panel panel;
    struct drawing drawing = {WELL, true, false};
    struct facts facts = facts_of(show->name);
    if (show->picture == NULL && show->page == NULL)
        return drawing;
    put_failure(&panel, &facts, ENDED, "The command that drew this panel was ended.", NULL, 8, false);
    write_panel(show, &drawing, &panel, false, false);
    return drawing;
}

void draw_refused_options(struct show *show) {
    static struct panel panel;
    struct drawing drawing = {FAILED, true, false};
    struct facts facts = facts_of(show->name);
    put_failure(&panel, &facts, REFUSED, last_said(), NULL, 8, false);
    write_panel(show, &drawing, &panel, show->text, false);
}
