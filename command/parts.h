/* A file's parts, each of which the library formats by itself. */
#ifndef PARTS_H
#define PARTS_H

#include "lent.h"
#include "refusals.h"
#include "streams.h"

/* All zero before the first. */
struct part {
    const uint8_t *bytes;
    size_t length;
    size_t bytes_before;
    unsigned long lines_before;
    bool no_mail;     /* next-mail is false where it begins */
    bool ends_unmail; /* and where it ends */
    size_t too_long;  /* if it is UNCUT: where in it the line begins that is too long, or 0, where its paragraph does */
};

/* The next part of what the window shows; the part before is dropped. UNCUT: a paragraph, or a line, is longer than the library takes. */
enum found { PART, NO_PART, UNCUT, UNREAD };
enum found next_part(struct window *window, const struct options *options, struct part *part);
/* The next part of notes that are in memory; of at most so many bytes if they can be cut so. */
enum found next_part_of(struct work *work, struct bytes block, struct bytes notes, size_t most, struct part *part);

/* The block of the options; and the one that a part is formatted with, which may need the room. */
struct bytes block_of(const struct options *options);
struct bytes block_of_part(struct bytes block, const struct part *part, uint8_t room[RUDIGNALS_MOST_BLOCK]);

/* Measures the part as a digest or, if so asked, as mail. */
uint64_t measure_part(const struct options *options, bool mail, const struct part *part);
/* Writes it into a room that has as many bytes as it was measured, and adds to the lines `--' that were made in mail. */
uint64_t write_part(const struct options *options, bool mail, const struct part *part, uint8_t *output, size_t length, uint64_t *dashes);

/* Records of the part's pieces. All zero at first; the room is kept from part to part. */
struct index {
    struct rudignals_record *records;
    size_t room;
    uint64_t filled;
};
/* Writes the part and its index. Answers RUDIGNALS_INDEX_FULL if there is no memory for the records. */
uint64_t index_part(const struct options *options, const struct part *part, uint8_t *output, size_t length, struct index *index);
/* How many lines its digest has. */
uint64_t lines_of_index(const struct index *index);
void free_index(struct index *index);

/* Of the whole file the lowest code counts, and the first place with it, as in one call. A part is refused by what measuring answered. */
void refuse_part(struct refusal *refusal, const struct part *part, uint64_t answer);
void refuse_uncut(struct refusal *refusal, const struct part *part);

#endif
