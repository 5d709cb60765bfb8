/* The panel as long as it is looked at: drawn again when the file has changed, and at least every minute, so that its time tells that it is
 * followed. */
#define _POSIX_C_SOURCE 200809L
#include "panel.h"

#include "progress.h"
#include "say.h"

#include <signal.h>
#include <stdlib.h>
#include <string.h>
#include <sys/stat.h>
#include <unistd.h>

/* In seconds: how long a drawing stands that was written, and how long until one that was not is tried again. */
enum { STANDS = 30, TRIED_AGAIN = 2 };

/* What shows that a file has changed, or who may read it; all zero if it is not there. */
struct mark {
    dev_t device;
    ino_t number;
    off_t size;
    struct timespec changed;
};

static struct mark mark_of(const char *name) {
    struct stat about;
    if (stat(name, &about) != 0)
        return (struct mark){0};
    return (struct mark){about.st_dev, about.st_ino, about.st_size, about.st_ctim};
}

static bool same(const struct mark *a, const struct mark *b) {
    return a->device == b->device && a->number == b->number && a->size == b->size && a->changed.tv_sec == b->changed.tv_sec &&
           a->changed.tv_nsec == b->changed.tv_nsec;
}

/* A screen of its own, without a cursor; nothing is carried over its right edge. */
static bool write_escape(const char *escape) {
    size_t length = strlen(escape);
    return write(STDOUT_FILENO, escape, length) == (ssize_t)length;
}
static bool enter_screen(void) { return write_escape("\033[?1049h\033[?25l\033[?7l"); }
static bool leave_screen(void) { return write_escape("\033[0m\033[?7h\033[?25h\033[?1049l"); }

/* The signals are blocked and asked for: so none can end the program between two halves of a drawing. */
static sigset_t watched(void) {
    static const int SIGNALS[] = {SIGINT, SIGTERM, SIGHUP, SIGQUIT, SIGTSTP, SIGWINCH};
    sigset_t set;
    size_t i;
    sigemptyset(&set);
    for (i = 0; i < sizeof SIGNALS / sizeof SIGNALS[0]; i++)
        sigaddset(&set, SIGNALS[i]);
    return set;
}

/* Stopped, the terminal is another's until we are continued. */
static bool pause_here(bool screen) {
    if (screen && !leave_screen())
        return false;
    kill(getpid(), SIGSTOP);
    return !screen || enter_screen();
}

/* No clock that somebody sets. */
static time_t seconds(void) {
    struct timespec now;
    return clock_gettime(CLOCK_MONOTONIC, &now) == 0 ? now.tv_sec : time(NULL);
}

/* Waits until the file is another than the mark, the window has another size or so many seconds have passed. Answers false if the following
 * is to end. */
static bool wait_for_change(const char *name, const struct mark *drawn, bool screen, int most) {
    static const struct timespec HALF_A_SECOND = {0, 500000000};
    time_t began = seconds();
    sigset_t set = watched();
    struct mark now;
    int signal;
    for (;;) {
        signal = sigtimedwait(&set, NULL, &HALF_A_SECOND);
        if (signal == SIGTSTP)
            return pause_here(screen);
        if (signal == SIGWINCH && screen)
            return true;
        if (signal > 0 && signal != SIGWINCH)
            return false;
        now = mark_of(name);
        if (!same(&now, drawn) || seconds() - began >= most)
            return true;
    }
}

/* What went wrong: first with the writing, which the wall cannot show. */
static const char *why(const struct show *show) { return show->trouble.lasts && show->trouble.words != NULL ? show->trouble.words : last_said(); }

/* What goes wrong is said when it begins, not at every drawing. */
static void say_once(const struct show *show, bool failed, bool hushed, char **before) {
    char *now = failed ? words("%s", why(show)) : NULL;
    silent = hushed;
    if (now != NULL && (*before == NULL || strcmp(*before, now) != 0))
        say("%s", now);
    silent = true;
    free(*before);
    *before = now;
}

/* Likewise what was mended. */
static void say_mended_once(const struct show *show, bool hushed, struct mended *before) {
    const struct mended *now = &show->mended;
    if (hushed) /* what went wrong is the last that was said, and is said behind the screen */
        return;
    silent = false;
    if (now->lines != before->lines || now->bytes != before->bytes || now->nameless != before->nameless)
        say_mended(label_of(show->name), now);
    silent = true;
    *before = *now;
}

/* The mark is taken before the file is read: what is written in between is seen the next time. */
static int draw_until_ended(struct show *show, bool screen, bool hushed) {
    struct drawing drawing, end;
    struct mark mark;
    struct mended mended = {0};
    char *said = NULL;
    do {
        mark = mark_of(show->name);
        drawing = draw_now(show, screen);
        say_once(show, drawing.status != WELL, hushed, &said);
        say_mended_once(show, hushed, &mended);
    } while (!drawing.hopeless && wait_for_change(show->name, &mark, screen, drawing.written ? STANDS : TRIED_AGAIN));
    end = draw_end(show);
    if (!end.written)
        say_once(show, true, hushed, &said);
    free(said);
    return end.written ? drawing.status : FAILED;
}

/* What was said while the screen was drawn on is said after it. */
int follow(struct show *show) {
    bool screen = show->text && view_of_output().terminal, hushed = screen && isatty(STDERR_FILENO);
    sigset_t set = watched();
    int status;
    sigprocmask(SIG_BLOCK, &set, NULL);
    end_progress(); /* the wall alone is drawn */
    if (screen && !enter_screen())
        return FAILED;
    silent = true;
    status = draw_until_ended(show, screen, hushed);
    if (screen && !leave_screen())
        status = FAILED;
    silent = false;
    if (hushed && status != WELL)
        say("%s", why(show));
    return status;
}
