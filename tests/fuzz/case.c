/* One case as a call of the command: case [FILE]
 *
 * A case, in FILE or on standard input, has the words of a command line, one a line, up to an empty line; the rest are three texts, with a line %%
 * between them. The first is standard input and the file notes, the second the file digest, the third the file list. The folders n and d have two
 * pairs of them, for audits. With a first word like @100x30 the output is a terminal of so many columns and rows.
 *
 * The call is made in the folder at hand, which is emptied first; nothing outside it can be named, since a slash in a word becomes an underscore. No
 * other program is started. A signal to end is waiting from the start, so that what follows a file ends after its first drawing.
 * An exit status that no subcommand has ends with a signal, as what a sanitizer reports does. */
#define _GNU_SOURCE
#include <fcntl.h>
#include <ftw.h>
#include <signal.h>
#include <stdarg.h>
#include <stdio.h>
#include <stdlib.h>
#include <string.h>
#include <sys/ioctl.h>
#include <sys/stat.h>
#include <unistd.h>

#undef ioctl
#undef isatty
#undef popen
#undef pclose

int command_main(int argc, char **argv);

enum { MOST_WORDS = 40, MOST_CASE = 1 << 20 };

static char bytes[MOST_CASE + 1];
static struct winsize window;

/* ---- what the command finds in the place of a terminal, and of other programs */

int case_isatty(int file) { return window.ws_col > 0 && file == STDOUT_FILENO; }

int case_ioctl(int file, unsigned long what, ...) {
    va_list values;
    (void)file, (void)what;
    va_start(values, what);
    *va_arg(values, struct winsize *) = window;
    va_end(values);
    return window.ws_col > 0 ? 0 : -1;
}

FILE *case_popen(const char *command, const char *mode) { return *command == '\0' ? NULL : fopen("/dev/null", mode); }

int case_pclose(FILE *file) { return fclose(file); }

/* ---- the folder */

static int drop(const char *path, const struct stat *about, int kind, struct FTW *walk) {
    (void)about, (void)kind;
    return walk->level > 0 && remove(path) != 0;
}

static void empty_folder(void) {
    struct stat about;
    if (stat("here", &about) != 0 && mkdir("here", 0777) != 0) /* so that a folder at hand by mistake loses nothing */
        abort();
    if (chdir("here") != 0 || nftw(".", drop, 8, FTW_DEPTH | FTW_PHYS) != 0)
        abort();
}

struct text {
    const char *bytes;
    size_t length;
};

static void write_file(const char *name, struct text text) {
    int file = open(name, O_WRONLY | O_CREAT | O_EXCL, 0666);
    if (file < 0 || write(file, text.bytes, text.length) != (ssize_t)text.length || close(file) != 0)
        abort();
}

static void write_files(const struct text *text) {
    write_file("notes", text[0]);
    write_file("digest", text[1]);
    write_file("list", text[2]);
    if (mkdir("n", 0777) != 0 || mkdir("d", 0777) != 0)
        abort();
    write_file("n/2024-02-29.txt", text[0]);
    write_file("d/2024-02-29.txt", text[1]);
    write_file("n/2024-03-31", text[0]);
    write_file("d/2024-03-31.out", text[2]);
}

/* ---- the case */

static size_t read_case(const char *name) {
    int file = name == NULL ? STDIN_FILENO : open(name, O_RDONLY);
    size_t length = 0;
    ssize_t got;
    while (length < MOST_CASE && (got = read(file, bytes + length, MOST_CASE - length)) > 0)
        length += (size_t)got;
    return length;
}

/* The words, without slashes; answers what is after the empty line. */
static char *take_words(char *at, char *end, int *argc, char **argv) {
    char *feed;
    while (at < end && *at != '\n' && *argc < MOST_WORDS) {
        feed = memchr(at, '\n', (size_t)(end - at));
        if (feed == NULL)
            feed = end;
        *feed = '\0';
        argv[(*argc)++] = at;
        for (; at < feed; at++)
            if (*at == '/')
                *at = '_';
        at = feed < end ? feed + 1 : end;
    }
    return at < end ? at + 1 : end;
}

static void take_texts(const char *at, const char *end, struct text *text) {
    const char *part;
    size_t i;
    for (i = 0; i < 3; i++) {
        part = i < 2 ? memmem(at, (size_t)(end - at), "%%\n", 3) : NULL;
        text[i] = (struct text){at, (size_t)((part == NULL ? end : part) - at)};
        at = part == NULL ? end : part + 3;
    }
}

static void take_window(int *argc, char **argv) {
    unsigned columns, rows;
    int i;
    if (*argc < 2 || sscanf(argv[1], "@%ux%u", &columns, &rows) != 2)
        return;
    window = (struct winsize){.ws_col = (unsigned short)columns, .ws_row = (unsigned short)rows};
    for (i = 2; i <= *argc; i++)
        argv[i - 1] = argv[i];
    (*argc)--;
}

static void await_end(void) {
    sigset_t set;
    sigemptyset(&set);
    sigaddset(&set, SIGTERM);
    sigprocmask(SIG_BLOCK, &set, NULL);
    raise(SIGTERM);
}

int main(int argc, char **argv) {
    static char name[] = "rudignals";
    char *words[MOST_WORDS + 2] = {name};
    const char *file = argc > 1 ? argv[1] : NULL;
    struct text text[3];
    char *end, *rest;
    int count = 1, status, input;
#ifdef __AFL_HAVE_MANUAL_CONTROL
    __AFL_INIT();
#endif
    end = bytes + read_case(file);
    rest = take_words(bytes, end, &count, words);
    take_texts(rest, end, text);
    take_window(&count, words);
    words[count] = NULL;
    empty_folder();
    write_files(text);
    input = open("notes", O_RDONLY);
    if (input < 0 || dup2(input, STDIN_FILENO) < 0 || close(input) != 0)
        abort();
    await_end();
    status = command_main(count, words);
    if (status < 0 || status > 2)
        abort();
    return status;
}
