/* A file's parts, each of which the library formats by itself.
 *
 * A part ends at a blank line (cut.c) or, where there is none, where a piece begins: that is a full boundary too, next-mail being true there
 * (`the-start-of-a-piece-is-a-full-boundary` in crates/rudignals/proofs/NothingLost.antt). Of lines that may go on, all pieces but the last are
 * those of the whole, since a piece ends by the line after it. Where next-mail is false the part after is formatted without the flag mail, up
 * to the next blank line. */
#include "parts.h"

#include "cut.h"
#include "lines.h"
#include "nextmail.h"

#include <stdlib.h>
#include <string.h>

struct bytes block_of(const struct options *options) { return (struct bytes){options->block, options->block_len}; }

struct bytes block_of_part(struct bytes block, const struct part *part, uint8_t room[RUDIGNALS_MOST_BLOCK]) {
    return part->no_mail ? without_mail(block, room) : block;
}

/* ---- pieces of lines that are in memory */

struct pieces {
    struct bytes block, lines;
    struct buffer digest;
    struct rudignals_record *records;
    uint64_t filled;
};

/* There are as many records as bytes; memory that no piece takes is not touched. */
static uint64_t find_pieces(struct work *work, struct pieces *pieces) {
    uint64_t answer = lent_measure(work, pieces->block, pieces->lines);
    size_t needed = rudignals_number_of(answer);
    if (rudignals_code_of(answer) != RUDIGNALS_DONE)
        return answer;
    pieces->records = malloc(pieces->lines.length * sizeof *pieces->records);
    if (pieces->records == NULL || !buffer_room(&pieces->digest, needed + 1))
        return (uint64_t)RUDIGNALS_WORK_ROOM << 32;
    pieces->digest.length = needed;
    return lent_write_indexed(work, pieces->block, pieces->lines, pieces->digest.bytes, needed, pieces->records, pieces->lines.length, &pieces->filled);
}

static void free_pieces(struct pieces *pieces) {
    free(pieces->records);
    buffer_free(&pieces->digest);
}

/* A piece that may be mail is asked for its kind; of any other it does not matter. */
static uint64_t kind_of(struct work *work, struct bytes block, bool mail, bool blank, struct bytes piece) {
    uint64_t reason[6] = {RUDIGNALS_END_OF_PARAGRAPH};
    if (blank)
        return RUDIGNALS_BLANK_LINE;
    if (mail && is_header(piece))
        lent_explain(work, block, piece, 0, reason);
    return reason[0];
}

/* Goes from piece to piece for next-mail, of which there is nothing to tell without the flag. A part that begins where it is false ends with its
 * first blank line, which is an empty line of the digest, as no other piece is. */
static size_t end_with_mail(struct work *work, struct pieces *pieces, bool all, struct part *part) {
    struct lines lines = read_lines(pieces->digest.bytes, pieces->digest.length);
    bool mail = !part->no_mail, blank;
    uint64_t i, line;
    for (i = 0; i < pieces->filled; i++) {
        const struct rudignals_record *record = &pieces->records[i];
        struct bytes piece = {pieces->lines.at + record->place, (size_t)record->length};
        blank = next_line(&lines) && lines.length == 1;
        part->ends_unmail = !blank && !mail;
        if (blank && part->no_mail)
            return (size_t)(record->place + record->length);
        if (!all && i + 1 == pieces->filled)
            return (size_t)record->place;
        mail = next_mail(pieces->block, mail, kind_of(work, pieces->block, mail, blank, piece), piece);
        for (line = 1; line < record->count; line++)
            next_line(&lines);
    }
    return pieces->lines.length;
}

/* The end of the last line that is there whole. */
static size_t whole_lines(struct bytes known, size_t most) {
    size_t end = known.length < most ? known.length : most;
    while (end > 0 && known.at[end - 1] != '\n')
        end--;
    return end;
}

/* Where the line begins that is too long by itself, among those that do not end a part; 0 if there is none but their paragraph. */
static size_t long_line(struct bytes known) {
    size_t at = whole_lines(known, MOST_LARGE);
    return known.length - at > MOST_LARGE && memchr(known.at + at, '\n', MOST_LARGE) == NULL ? at : 0;
}

/* A blank or a plain line is a piece whatever follows. */
static size_t end_of_line(struct work *work, struct pieces *pieces, struct part *part) {
    uint64_t reason[6] = {RUDIGNALS_END_OF_PARAGRAPH};
    lent_explain(work, pieces->block, pieces->lines, 0, reason);
    if (reason[0] != RUDIGNALS_BLANK_LINE && reason[0] != RUDIGNALS_PLAIN_LINE)
        return 0;
    part->ends_unmail = reason[0] == RUDIGNALS_PLAIN_LINE && (part->no_mail || asks_for_mail(pieces->block));
    return pieces->lines.length;
}

/* Where the last piece begins; it may go on. What is refused is a part as it is: measuring tells why. 0 if a paragraph
 * may go on. */
static size_t end_at_piece(struct work *work, struct bytes block, struct bytes known, bool all, size_t most, struct part *part) {
    uint8_t room[RUDIGNALS_MOST_BLOCK];
    struct pieces pieces = {.block = block_of_part(block, part, room), .lines = {known.at, all ? known.length : whole_lines(known, most)}};
    size_t end = 0;
    uint32_t code;
    if (pieces.lines.length == 0)
        return 0;
    code = rudignals_code_of(find_pieces(work, &pieces));
    if (code == RUDIGNALS_TEXT || code == RUDIGNALS_ROOM)
        end = pieces.lines.length;
    else if (code == RUDIGNALS_DONE && asks_for_mail(block))
        end = end_with_mail(work, &pieces, all, part);
    else if (code == RUDIGNALS_DONE)
        end = all ? pieces.lines.length : (size_t)pieces.records[pieces.filled - 1].place;
    if (code == RUDIGNALS_DONE && end == 0)
        end = end_of_line(work, &pieces, part);
    free_pieces(&pieces);
    return end;
}

/* How long a part is of what is known of the notes from its start on; 0: it does not end within so many bytes. */
static size_t end_of_part(struct work *work, struct bytes block, struct bytes known, bool ended, size_t most, struct part *part) {
    size_t end = part->no_mail ? 0 : first_part(known.at, known.length, ended, most);
    part->ends_unmail = false;
    return end > 0 ? end : end_at_piece(work, block, known, ended && known.length <= most, most, part);
}

/* ---- one part after the other */

static void pass(struct part *part) {
    part->bytes_before += part->length;
    part->lines_before += feeds(part->bytes, part->length);
    part->no_mail = part->ends_unmail;
    part->length = 0;
}

static enum found uncut(struct part *part, struct bytes known) {
    part->too_long = long_line(known);
    return UNCUT;
}

static size_t widened(size_t most) { return most > MOST_LARGE / 2 ? MOST_LARGE : 2 * most; }

enum found next_part(struct window *window, const struct options *options, struct part *part) {
    size_t most, dropped = part->length;
    pass(part);
    drop_bytes(window, dropped);
    for (most = MOST_PART;; most = widened(most)) {
        part->bytes = window->bytes;
        if (!fill_window(window, 2 * most))
            return UNREAD;
        part->bytes = window->bytes;
        part->length = end_of_part(&own_work, block_of(options), (struct bytes){window->bytes, window->length}, window->ended, most, part);
        if (part->length > 0)
            return PART;
        if (window->length == 0)
            return NO_PART;
        if (most >= MOST_LARGE)
            return uncut(part, (struct bytes){window->bytes, window->length});
    }
}

enum found next_part_of(struct work *work, struct bytes block, struct bytes notes, size_t most, struct part *part) {
    struct bytes rest;
    pass(part);
    if (part->bytes_before == notes.length)
        return NO_PART;
    rest = (struct bytes){notes.at + part->bytes_before, notes.length - part->bytes_before};
    for (part->bytes = rest.at;; most = widened(most)) {
        part->length = end_of_part(work, block, rest, true, most, part);
        if (part->length > 0)
            return PART;
        if (most >= MOST_LARGE)
            return uncut(part, rest);
    }
}

/* ---- a part */

/* As mail: without room the call tells how much it needs, unless that is more than it can tell. */
uint64_t measure_part(const struct options *options, bool mail, const struct part *part) {
    uint8_t room[RUDIGNALS_MOST_BLOCK];
    struct bytes block = block_of_part(block_of(options), part, room), notes = {part->bytes, part->length};
    uint64_t dashes, answer;
    if (!mail)
        return lent_measure(&own_work, block, notes);
    answer = lent_flow(&own_work, block, notes, NULL, 0, &dashes);
    return rudignals_code_of(answer) == RUDIGNALS_ROOM && rudignals_number_of(answer) < UINT32_MAX ? rudignals_number_of(answer) : answer;
}

uint64_t write_part(const struct options *options, bool mail, const struct part *part, uint8_t *output, size_t length, uint64_t *dashes) {
    uint8_t room[RUDIGNALS_MOST_BLOCK];
    struct bytes block = block_of_part(block_of(options), part, room), notes = {part->bytes, part->length};
    uint64_t made, answer;
    if (!mail)
        return lent_write(&own_work, block, notes, output, length);
    answer = lent_flow(&own_work, block, notes, output, length, &made);
    *dashes += made;
    return answer;
}

/* As many records as there are bytes always do. */
uint64_t index_part(const struct options *options, const struct part *part, uint8_t *output, size_t length, struct index *index) {
    uint8_t room[RUDIGNALS_MOST_BLOCK];
    struct bytes notes = {part->bytes, part->length};
    if (index->room < part->length) {
        free(index->records);
        index->room = part->length;
        index->records = malloc(index->room * sizeof *index->records);
    }
    if (index->records == NULL) {
        index->room = 0;
        return (uint64_t)RUDIGNALS_INDEX_FULL << 32;
    }
    return lent_write_indexed(&own_work, block_of_part(block_of(options), part, room), notes, output, length, index->records, index->room, &index->filled);
}

uint64_t lines_of_index(const struct index *index) {
    return index->filled == 0 ? 0 : index->records[index->filled - 1].first + index->records[index->filled - 1].count;
}

void free_index(struct index *index) {
    free(index->records);
    *index = (struct index){0};
}

/* A column is a character: bytes from 80 to BF continue one. That is exact, since the library names the first damaged character and all
 * before it are whole. */
static unsigned long column_of(const uint8_t *bytes, size_t place) {
    unsigned long column = 1;
    for (; place > 0 && bytes[place - 1] != '\n'; place--)
        column += (bytes[place - 1] & 0xC0u) != 0x80u;
    return column;
}

static void refuse(struct refusal *refusal, const struct part *part, uint32_t code, size_t place) {
    if (refusal->code != RUDIGNALS_DONE && refusal->code <= code)
        return;
    refusal->code = code;
    refusal->place = part->bytes_before + place;
    refusal->line = part->lines_before + feeds(part->bytes, place) + 1;
    refusal->column = column_of(part->bytes, place);
    refusal->byte = place < part->length ? part->bytes[place] : 0;
}

void refuse_part(struct refusal *refusal, const struct part *part, uint64_t answer) {
    uint32_t code = rudignals_code_of(answer);
    if (code != RUDIGNALS_DONE)
        refuse(refusal, part, code, code == RUDIGNALS_TEXT ? rudignals_number_of(answer) : 0);
}

void refuse_uncut(struct refusal *refusal, const struct part *part) { refuse(refusal, part, RUDIGNALS_LONG, part->too_long); }
