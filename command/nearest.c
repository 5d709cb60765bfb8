/* The name that somebody may have meant. */
#include "nearest.h"

#include <string.h>

enum { MOST_LETTERS = 32 };

static size_t least(size_t a, size_t b) { return a < b ? a : b; }

/* How many letters must be put in, left out, changed or exchanged with the next: the distance of Damerau and Levenshtein. */
static size_t distance(const char *a, size_t m, const char *b, size_t n) {
    size_t d[MOST_LETTERS + 1][MOST_LETTERS + 1], i, j;
    for (i = 0; i <= m; i++)
        d[i][0] = i;
    for (j = 0; j <= n; j++)
        d[0][j] = j;
    for (i = 1; i <= m; i++) {
        for (j = 1; j <= n; j++) {
            d[i][j] = least(least(d[i - 1][j], d[i][j - 1]) + 1, d[i - 1][j - 1] + (a[i - 1] != b[j - 1]));
            if (i > 1 && j > 1 && a[i - 1] == b[j - 2] && a[i - 2] == b[j - 1])
                d[i][j] = least(d[i][j], d[i - 2][j - 2] + 1);
        }
    }
    return d[m][n];
}

/* A third of the letters may be wrong, and of a short word one. */
struct nearest nearest_to(const char *typed, size_t length) { return (struct nearest){typed, length, length / 3 + 2, NULL}; }

void try_name(struct nearest *nearest, const char *name) {
    size_t length = strlen(name), away;
    if (length > MOST_LETTERS || nearest->length > MOST_LETTERS)
        return;
    away = distance(nearest->typed, nearest->length, name, length);
    if (away < nearest->away) {
        nearest->away = away;
        nearest->name = name;
    }
}
