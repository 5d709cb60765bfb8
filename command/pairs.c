/* The pairs that an audit is asked of. */
#define _POSIX_C_SOURCE 200809L
#include "pairs.h"

#include "buffer.h"
#include "lines.h"

#include <dirent.h>
#include <errno.h>
#include <stdlib.h>
#include <string.h>
#include <sys/stat.h>

/* ---- pairs */

static char *copy_of(const char *text) { return text == NULL ? NULL : strdup(text); }

static bool copied(const char *from, const char *to) { return from == NULL || to != NULL; }

bool add_pair(struct pairs *pairs, const char *notes, const char *digest, const char *why) {
    size_t room = pairs->room == 0 ? 256 : 2 * pairs->room;
    struct pair *row, *wider;
    if (pairs->length == pairs->room) {
        wider = realloc(pairs->rows, room * sizeof *wider);
        if (wider == NULL)
            return false;
        pairs->rows = wider;
        pairs->room = room;
    }
    row = &pairs->rows[pairs->length++];
    *row = (struct pair){copy_of(notes), copy_of(digest), copy_of(why), NULL};
    row->key = copy_of(notes != NULL ? notes : digest);
    return copied(notes, row->notes) && copied(digest, row->digest) && copied(why, row->why) && row->key != NULL;
}

static int by_key(const void *a, const void *b) { return strcmp(((const struct pair *)a)->key, ((const struct pair *)b)->key); }

void sort_pairs(struct pairs *pairs) {
    if (pairs->length > 0)
        qsort(pairs->rows, pairs->length, sizeof *pairs->rows, by_key);
}

void free_pairs(struct pairs *pairs) {
    size_t i;
    for (i = 0; i < pairs->length; i++) {
        free(pairs->rows[i].notes);
        free(pairs->rows[i].digest);
        free(pairs->rows[i].why);
        free(pairs->rows[i].key);
    }
    free(pairs->rows);
    *pairs = (struct pairs){NULL, 0, 0};
}

/* ---- a list */

static bool add_listed(struct pairs *pairs, char *line, unsigned long number) {
    char *tab = strchr(line, '\t');
    struct buffer why = {0};
    bool well;
    if (tab != NULL && tab > line && tab[1] != '\0' && strchr(tab + 1, '\t') == NULL) {
        *tab = '\0';
        return add_pair(pairs, line, tab + 1, NULL);
    }
    well = buffer_print(&why, "line %lu of the list is not two names with a tab between them", number) && buffer_add(&why, "", 1);
    well = well && add_pair(pairs, line, NULL, (const char *)why.bytes);
    buffer_free(&why);
    return well;
}

/* A carriage return before the line feed is no part of a name; a line without a sign says nothing. */
bool add_list(struct pairs *pairs, const char *bytes, size_t length) {
    struct lines lines = read_lines(bytes, length);
    size_t kept;
    char *line;
    bool well = true;
    while (well && next_line(&lines)) {
        kept = lines.length - lines.fed;
        if (lines.fed && kept > 0 && lines.line[kept - 1] == '\r')
            kept--;
        if (kept == 0)
            continue;
        line = malloc(kept + 1);
        well = line != NULL;
        if (well) {
            memcpy(line, lines.line, kept);
            line[kept] = '\0';
            well = add_listed(pairs, line, lines.number);
        }
        free(line);
    }
    return well;
}

/* ---- folders */

/* A file below a folder: its path below it, how much of that is left without the last suffix, and, where it cannot be looked into, why. */
struct found {
    char *path;
    size_t stem;
    char *why;
    bool taken;
};

struct finds {
    struct found *rows;
    size_t length, room;
};

/* The last dot of the name begins its suffix, unless the name begins with it. */
static size_t stem_of(const char *path) {
    const char *slash = strrchr(path, '/'), *name = slash == NULL ? path : slash + 1, *dot = strrchr(name, '.');
    return dot == NULL || dot == name ? strlen(path) : (size_t)(dot - path);
}

static bool add_found(struct finds *finds, const char *path, const char *why) {
    size_t room = finds->room == 0 ? 256 : 2 * finds->room;
    struct found *wider;
    if (finds->length == finds->room) {
        wider = realloc(finds->rows, room * sizeof *wider);
        if (wider == NULL)
            return false;
        finds->rows = wider;
        finds->room = room;
    }
    finds->rows[finds->length++] = (struct found){copy_of(path), stem_of(path), copy_of(why), false};
    return copied(path, finds->rows[finds->length - 1].path) && copied(why, finds->rows[finds->length - 1].why);
}

static char *joined(const char *folder, const char *name) {
    struct buffer path = {0};
    size_t length = strlen(folder);
    if (!buffer_print(&path, "%s%s%s", folder, length == 0 || folder[length - 1] == '/' ? "" : "/", name) || !buffer_add(&path, "", 1)) {
        buffer_free(&path);
        return NULL;
    }
    return (char *)path.bytes;
}

static bool look_into(struct finds *finds, const char *top, const char *below);

/* A link to a folder is not gone into: it may lead back. */
static bool look_at(struct finds *finds, const char *top, const char *below) {
    char *path = joined(top, below);
    struct stat about;
    bool folder, well = path != NULL;
    if (well) {
        folder = lstat(path, &about) == 0 && S_ISDIR(about.st_mode);
        well = folder ? look_into(finds, top, below) : add_found(finds, below, NULL);
    }
    free(path);
    return well;
}

/* Reads on until the folder has no further name; what stops that is told. */
static bool look_through(struct finds *finds, const char *top, const char *below, DIR *folder) {
    const struct dirent *row;
    char *path;
    bool well = true;
    while (well && (errno = 0, row = readdir(folder)) != NULL) {
        if (strcmp(row->d_name, ".") == 0 || strcmp(row->d_name, "..") == 0)
            continue;
        path = *below == '\0' ? strdup(row->d_name) : joined(below, row->d_name);
        well = path != NULL && look_at(finds, top, path);
        free(path);
    }
    return well && (errno == 0 || add_found(finds, below, strerror(errno)));
}

static bool look_into(struct finds *finds, const char *top, const char *below) {
    char *path = joined(top, below);
    DIR *folder = path == NULL ? NULL : opendir(path);
    bool well = path != NULL;
    if (folder != NULL) {
        well = look_through(finds, top, below, folder);
        closedir(folder);
    } else if (well) {
        well = add_found(finds, below, strerror(errno));
    }
    free(path);
    return well;
}

static int by_path(const void *a, const void *b) { return strcmp(((const struct found *)a)->path, ((const struct found *)b)->path); }

static int by_stem(const struct found *a, const struct found *b) {
    int order = memcmp(a->path, b->path, a->stem < b->stem ? a->stem : b->stem);
    return order != 0 ? order : (a->stem > b->stem) - (a->stem < b->stem);
}

static int by_stem_then_path(const void *a, const void *b) {
    int order = by_stem(a, b);
    return order != 0 ? order : by_path(a, b);
}

static bool pair_found(struct pairs *pairs, const char *notes, struct found *a, const char *digests, struct found *b) {
    char *first = a == NULL ? NULL : joined(notes, a->path), *second = b == NULL ? NULL : joined(digests, b->path);
    bool well = (a == NULL || first != NULL) && (b == NULL || second != NULL);
    const char *why = a != NULL && a->why != NULL ? a->why : b != NULL ? b->why : NULL;
    if (well) {
        well = add_pair(pairs, first, second, why);
        free(pairs->rows[pairs->length - 1].key);
        pairs->rows[pairs->length - 1].key = strdup(a != NULL ? a->path : b->path);
        well = well && pairs->rows[pairs->length - 1].key != NULL;
    }
    free(first);
    free(second);
    return well;
}

/* The next of the rows from `at' on, up to `end', that is not taken and has this path; null is any. */
static struct found *next_free(struct finds *finds, size_t at, size_t end, const char *path) {
    for (; at < end; at++)
        if (!finds->rows[at].taken && (path == NULL || strcmp(finds->rows[at].path, path) == 0))
            return &finds->rows[at];
    return NULL;
}

/* Files of one stem. Where a side has several, the same name comes first, then the order of the names. */
static bool pair_stem(struct pairs *pairs, const char *notes, struct finds *a, size_t a_at, size_t a_end, const char *digests, struct finds *b, size_t b_at, size_t b_end) {
    struct found *other;
    size_t i;
    bool well = true;
    for (i = a_at; well && i < a_end; i++)
        if ((other = next_free(b, b_at, b_end, a->rows[i].path)) != NULL) {
            a->rows[i].taken = other->taken = true;
            well = pair_found(pairs, notes, &a->rows[i], digests, other);
        }
    for (i = a_at; well && i < a_end; i++)
        if (!a->rows[i].taken) {
            other = next_free(b, b_at, b_end, NULL);
            if (other != NULL)
                other->taken = true;
            well = pair_found(pairs, notes, &a->rows[i], digests, other);
        }
    for (i = b_at; well && i < b_end; i++)
        if (!b->rows[i].taken)
            well = pair_found(pairs, notes, NULL, digests, &b->rows[i]);
    return well;
}

static size_t same_stems(const struct finds *finds, size_t at) {
    size_t end = at;
    while (end < finds->length && by_stem(&finds->rows[at], &finds->rows[end]) == 0)
        end++;
    return end;
}

static bool pair_all(struct pairs *pairs, const char *notes, struct finds *a, const char *digests, struct finds *b) {
    size_t i = 0, j = 0, i_end, j_end;
    int order;
    bool well = true;
    while (well && (i < a->length || j < b->length)) {
        order = i == a->length ? 1 : j == b->length ? -1 : by_stem(&a->rows[i], &b->rows[j]);
        i_end = order <= 0 ? same_stems(a, i) : i;
        j_end = order >= 0 ? same_stems(b, j) : j;
        well = pair_stem(pairs, notes, a, i, i_end, digests, b, j, j_end);
        i = i_end;
        j = j_end;
    }
    return well;
}

static void free_finds(struct finds *finds) {
    size_t i;
    for (i = 0; i < finds->length; i++) {
        free(finds->rows[i].path);
        free(finds->rows[i].why);
    }
    free(finds->rows);
}

static void sort_finds(struct finds *finds) {
    if (finds->length > 0)
        qsort(finds->rows, finds->length, sizeof *finds->rows, by_stem_then_path);
}

bool add_folders(struct pairs *pairs, const char *notes, const char *digests) {
    struct finds a = {NULL, 0, 0}, b = {NULL, 0, 0};
    bool well = look_into(&a, notes, "") && look_into(&b, digests, "");
    if (well) {
        sort_finds(&a);
        sort_finds(&b);
        well = pair_all(pairs, notes, &a, digests, &b);
    }
    free_finds(&a);
    free_finds(&b);
    return well;
}
