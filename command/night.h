/* What night.c, outputs.c and nights.c share: one night, made in memory and put in its place. */
#ifndef NIGHT_H
#define NIGHT_H

#include "digest.h"
#include "mend.h"
#include "mime.h"
#include "panel.h"

/* The files of a night. */
enum { DIGEST_TXT, DIGEST_EML, PAGE_HTML, WALL_SVG, WALL_HTML, INDEX_JSON, STATUS_JSON, OUTPUTS };
extern const char *const OUTPUT_NAMES[OUTPUTS];

/* What a night is made of, and how it went. */
struct night {
    const struct options *options;
    const char *name;  /* of the file of notes, as it was given */
    const char *label; /* without its folder */
    struct buffer notes; /* as they are formatted: mended, if so asked */
    struct buffer raw;   /* as they were read, if they were mended */
    struct mended mended;
    struct digest digest;
    enum outcome outcome;
    char *reason; /* in words, if there is no digest; null: no memory for them */
    struct facts facts;
    struct counts counts; /* of the digest's lines */
    bool paged; /* the page shows the digest */
    struct buffer output[OUTPUTS];
};

/* ---- night.c: notes read and formatted */

/* Reads the notes and makes their digest, or says why there is none. What is there already is used again; it is freed at the end. */
void find_night(struct night *night, const char *name);
void free_night(struct night *night);
/* Says what is wrong with the addresses, if something is. */
bool mail_options_accepted(const struct options *options);

/* ---- outputs.c: every file of a night */

/* Makes all of them. Answers false, with errno, without memory. */
bool make_outputs(struct night *night);
/* The mail alone, without the page. */
bool make_mail_alone(struct night *night);

/* ---- nights.c: a night put in its place whole */

/* A folder that nights are made in, held against a second run. */
struct nights {
    const char *folder;
    int lock;
};
/* Opens the folder, makes it if it is not there, and takes away what a broken run left. Says why, if that fails. */
bool open_nights(struct nights *nights, const char *folder);
/* Puts the night in the place of the old one: whoever looks sees one of them whole. Says why, if that fails; then the old one stands. */
bool put_night(const struct nights *nights, const struct night *night);
void close_nights(struct nights *nights);

#endif
