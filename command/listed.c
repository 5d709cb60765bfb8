/* What salvage.c and restore.c share. */
#include "listed.h"

#include "say.h"

#include <string.h>

bool find_files(struct files *files, const struct options *options) {
    if (options->count < 1 || options->count > 2) {
        say(options->count < 1 ? "LIST is missing" : "LIST and at most one FILE are asked for");
        return false;
    }
    if (strcmp(options->files[0], "-") == 0) {
        say("LIST must be a file; standard input and standard output are taken");
        return false;
    }
    files->list = options->files[0];
    files->file = options->count == 2 ? options->files[1] : "-";
    return true;
}

size_t lines_within(const struct window *window, size_t most) {
    size_t end = window->length < most ? window->length : most;
    if (window->ended && window->length <= most)
        return window->length;
    while (end > 0 && window->bytes[end - 1] != '\n')
        end--;
    return end;
}
