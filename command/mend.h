/* Notes mended in memory: a line that is not UTF-8 is read as ISO 8859-1. */
#ifndef MEND_H
#define MEND_H

#include "buffer.h"
#include "limits.h"

/* How many lines were mended, how many bytes of them were changed, and how many of these are 80 to 9F, for which ISO 8859-1 has no letter. */
struct mended {
    size_t lines, bytes, nameless;
};

/* Notes come in from their front, in parts of any length, and go out mended. All zero at first; what goes out is in memory line by line. */
struct mender {
    struct buffer raw;  /* the beginning of a line whose end has not come in */
    struct buffer copy; /* mended, and from `taken` on not out yet */
    size_t taken;
    struct mended mended;
};

/* Takes in what follows, and with `ended` that no more does. Answers false, with errno, if there is no memory. */
bool mend_next(struct mender *mender, const uint8_t *bytes, size_t length, bool ended);
/* So many bytes of the mended notes; 0 if more has to come in first. */
size_t take_mended(struct mender *mender, uint8_t *to, size_t most);
/* From the front again. The room is kept. */
void mend_anew(struct mender *mender);
void free_mender(struct mender *mender);

/* Puts the mended copy in the notes' place. Answers false, with errno, if there is no memory. */
bool mend_notes(struct buffer *notes, struct mended *mended);

/* How many bytes are 80 to 9F. */
size_t count_nameless(const uint8_t *bytes, size_t length);
/* What was mended, in words; nothing if nothing was. */
void say_mended(const char *label, const struct mended *mended);
void say_nameless(const char *label, size_t count);

#endif
