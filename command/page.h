/* What page.c, sheet.c, markup.c and assets.c share: the operator's page. */
#ifndef PAGE_H
#define PAGE_H

#include "panel.h"

/* ---- markup.c: bytes as the text of a page */

/* A line of a digest, in its columns; and a line of the notes, every byte seen. In the latter the sign that begins at `marked` is marked. */
void put_line(FILE *out, const uint8_t *bytes, size_t length, uint64_t tab);
void put_raw(FILE *out, const uint8_t *bytes, size_t length, size_t marked);
/* Text that can have no markup in it, a title say: what cannot be seen is U+FFFD. */
void put_name(FILE *out, const char *name);
/* A row of the panel. */
void put_row(FILE *out, const struct panel *panel, int row);

/* The columns that a line takes, a tab at its end apart, and how many of its bytes are part of no character. */
struct look {
    uint64_t columns;
    size_t damaged;
};
struct look look_at(const uint8_t *bytes, size_t length, uint64_t tab);
/* How many bytes of a text stand before its first blank, of any kind; and before its first other character. */
size_t word_length(const uint8_t *bytes, size_t length);
size_t blank_length(const uint8_t *bytes, size_t length);

/* ---- sheet.c: the page */

/* A line of the digest; why it ends there, if that was asked. */
struct line {
    size_t at, length; /* without its line feed */
    struct look look;
    bool asked;
    uint64_t reason[6];
};

/* A paragraph, plain line or blank line: its part of the notes, the line there, from 1, with which it begins, and its lines in the digest. */
struct piece {
    size_t place, length;
    unsigned long note;
    size_t first, count;
    size_t hidden; /* so many of its lines stand above those that are shown, and do not count here */
};

struct page {
    const struct options *options;
    const char *label;
    const uint8_t *notes; /* as many as were read */
    size_t notes_len;
    bool read_whole;
    const struct digest *digest;
    struct piece *pieces;
    size_t pieces_len;
    struct line *lines;
    size_t lines_len;
    size_t shown_from; /* in the digest */
    size_t above, damaged_above; /* lines of the digest that are not shown: a page has no room for them */
    struct mended mended; /* before it was formatted; the notes are the mended ones */
    struct facts facts;
    struct panel panel;
};

/* The page of a digest; and of one that was not made, for a reason in words, with the place in the notes if they were refused. */
void put_page(FILE *out, const struct page *page);
void put_failed_page(FILE *out, const struct page *page, enum outcome outcome, const char *reason);

/* ---- page.c: a page of notes and a digest in memory */

/* Works out what the page shows, or says why there is none. Answers the outcome: that of the digest, or another if there is no page of it. */
enum outcome find_page(struct page *page, enum outcome outcome);
/* The page by its outcome: of the digest, or why there is none. */
void draw_found(FILE *out, struct page *page, enum outcome outcome, const char *reason);
void free_page(struct page *page);

/* ---- assets.c, made by tools/page: the style and the script of every page, a line each, and their SHA-256 for its content policy */

extern const char *const PAGE_STYLE[], *const PAGE_SCRIPT[];
extern const char PAGE_STYLE_HASH[], PAGE_SCRIPT_HASH[];

#endif
