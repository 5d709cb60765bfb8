/* How far a long work has come, on a terminal: one line, which is written over and taken away. */
#define _POSIX_C_SOURCE 200809L
#include "progress.h"

#include <stdio.h>
#include <time.h>
#include <unistd.h>

static bool shown = false, ended = false;

static double now(void) {
    struct timespec time;
    return clock_gettime(CLOCK_MONOTONIC, &time) == 0 ? (double)time.tv_sec + 1e-9 * (double)time.tv_nsec : 0;
}

void show_progress(size_t done, size_t all) {
    static double next = 0;
    static int terminal = -1;
    double at;
    if (terminal < 0)
        terminal = isatty(STDERR_FILENO);
    if (terminal == 0 || ended)
        return;
    at = now();
    if (next == 0)
        next = at + 2;
    if (at < next)
        return;
    next = at + 0.2;
    shown = true;
    if (all > 0)
        fprintf(stderr, "\r%3d %% of %lu MB ", (int)((double)done * 100 / (double)all), (unsigned long)(all / 1000000));
    else
        fprintf(stderr, "\r%lu MB ", (unsigned long)(done / 1000000));
    fflush(stderr);
}

void clear_progress(void) {
    if (shown)
        fputs("\r                              \r", stderr);
    shown = false;
}

void end_progress(void) {
    clear_progress();
    ended = true;
}
