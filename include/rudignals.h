/* rudignals.h: a paragraph formatter for operators' notes. Every function of the library is proved against what this header promises.
 *
 * Link a program by `cc program.c $(pkg-config --cflags --libs rudignals)`, or give the path of librudignals.a. The library needs `memset`
 * and no other symbol. The rules of formatting are in docs/RULES.md; rudignals(3) is the manual page, and every call has a page of its own,
 * made from the text in this file.
 *
 * For every call:
 *
 * - A slice is a pointer and a length. A null pointer with length 0 is an empty slice.
 * - Every length and every content of every slice has an answer. A call never fails in another way.
 * - A pointer must point to as many elements as the call is given. What a call writes must not overlap any other slice of the same call.
 *   This holds for every slice of every call. Slices that are only read may overlap each other.
 * - A call keeps no state, takes no memory from a heap and calls nothing back. Any number of threads may call at the same time.
 * - A call works on the stack. At most 80,407 bytes were measured for a call on x86-64, and docs/FIGURES.md has each call. Give a thread
 *   256 KiB: the tests fail above that.
 * - Offsets are counted in bytes from 0, lines and records from 0. Columns count by Unicode 15.0.0.
 */
#ifndef RUDIGNALS_H
#define RUDIGNALS_H

#include <stddef.h>
#include <stdint.h>

#ifdef __cplusplus
extern "C" {
#endif

/* ---- Version ---------------------------------------------------------------------------------------------------------------------------- */

/* The version of this header. A program that was built with one version works with every later library of the same MAJOR. */
#define RUDIGNALS_VERSION_MAJOR 1
#define RUDIGNALS_VERSION_MINOR 1
#define RUDIGNALS_VERSION_PATCH 0
#define RUDIGNALS_VERSION "1.1.0"

/* rudignals_version - the version of the library that the program runs with
 *
 * Returns a text such as "1.1.0". RUDIGNALS_VERSION is the version of the header that the program was compiled with. The two may differ
 * where the library is shared. (Since 1.1.0.)
 */
const char *rudignals_version(void);

/* ---- Limits ----------------------------------------------------------------------------------------------------------------------------- */

#define RUDIGNALS_MOST_NOTES 65536u      /* bytes of notes, and of a digest or mail that is read */
#define RUDIGNALS_MOST_WORDS 1024u       /* words of a paragraph */
#define RUDIGNALS_MOST_PREFIX 255u       /* bytes of a prefix */
#define RUDIGNALS_MOST_COPY (2 * RUDIGNALS_MOST_NOTES) /* bytes of a mended copy */
#define RUDIGNALS_MOST_COLUMNS 1000u     /* columns of a folded row */
#define RUDIGNALS_MOST_TEXT 1073741824u  /* bytes of a text that is folded */

/* Room that is always enough, so that code 5 is never given. These bounds are proved. They are far more than ordinary notes need: measure
 * first, and lend what is measured. */
#define RUDIGNALS_MOST_DIGEST(notes_len) ((size_t)1040 * (size_t)(notes_len))  /* a digest, whatever the options */
#define RUDIGNALS_MOST_FLOWED(notes_len) ((size_t)3120 * (size_t)(notes_len))  /* a digest as mail */
#define RUDIGNALS_MOST_UNFLOWED(text_len) ((size_t)4 * (size_t)(text_len))     /* mail that was read */

/* ---- Answers ---------------------------------------------------------------------------------------------------------------------------- */

/* A call answers code * 2^32 + N. (rudignals_lookup answers 1 or 0.) Where several codes apply, the call gives the first one that its own text
 * lists. "Zero" means that every byte of the output is 0 afterwards.
 *
 *   Code             Given when                                      N                                     Output afterwards
 *    0 done          no other code applies                           bytes written, or needed              the result; the rest is unchanged
 *    1 options       the option block is faulty; a number of         offset of the first faulty field, or  unchanged (panel: blank)
 *                    panel or fold is out of its range               options_len: see rudignals_measure
 *    2 long          the notes or the text are too long              0                                     unchanged
 *    3 text          a character of the notes is damaged,            offset of its first byte              unchanged
 *                    and the flag keep is off
 *    4 words         a paragraph has too many words                  offset of its first line              zero
 *    5 room          the output is too small                         bytes needed                          zero (mend, restore: unchanged)
 *    6 index full    the index has too few records                   records needed                        zero
 *    7 list full     the list of changes is too short                entries needed                        unchanged
 *    8 no line       the digest has no such line                     lines of the digest                   unchanged
 *    9 long digest   the digest to be checked is too long            0                                     nothing is written
 *   10 not accepted  the digest does not carry the notes             the first line that cannot be right   nothing is written
 *   11 list          the list of changes does not fit the copy       the first entry that does not fit     unchanged
 *   12 work          the lent working room is too small              numbers needed                        unchanged
 */
enum rudignals_code {
    RUDIGNALS_DONE = 0,
    RUDIGNALS_OPTIONS = 1,
    RUDIGNALS_LONG = 2,
    RUDIGNALS_TEXT = 3,
    RUDIGNALS_WORDS = 4,
    RUDIGNALS_ROOM = 5,
    RUDIGNALS_INDEX_FULL = 6,
    RUDIGNALS_LIST_FULL = 7,
    RUDIGNALS_NO_LINE = 8,
    RUDIGNALS_LONG_DIGEST = 9,
    RUDIGNALS_NOT_ACCEPTED = 10,
    RUDIGNALS_LIST = 11,
    RUDIGNALS_WORK_ROOM = 12 /* since 1.1.0; only the calls with "large" in their names give it */
};

/* rudignals_code_of - the code of an answer
 *
 * Returns the upper 32 bits of the answer: a value of enum rudignals_code.
 */
static inline uint32_t rudignals_code_of(uint64_t answer) { return (uint32_t)(answer >> 32); }

/* rudignals_number_of - the number N of an answer
 *
 * Returns the lower 32 bits of the answer. What N means depends on the code.
 */
static inline uint32_t rudignals_number_of(uint64_t answer) { return (uint32_t)(answer & 0xFFFFFFFFu); }

/* rudignals_code_words - what a code means, in a few English words
 *
 * Returns a text for a log, such as "a character of the notes is damaged". The text of a number that is no code is "unknown code". It never
 * returns a null pointer. (Since 1.1.0.)
 */
const char *rudignals_code_words(uint32_t code);

/* ---- Options ---------------------------------------------------------------------------------------------------------------------------- */

/* An option block is a row of fields. A field is its tag (one byte), the length of its value (two bytes, most significant first) and the
 * value; a number is two bytes, most significant first. Tags ascend, and none occurs twice. An option without a field has its default, so the
 * empty block means all defaults. rudignals_put_number and rudignals_put_prefix write fields. */
enum rudignals_tag {
    RUDIGNALS_TAG_FLAGS = 1,  /* a number: the sum of the flags below; default 0 */
    RUDIGNALS_TAG_WIDTH = 2,  /* a number, 1 to 1,000: the columns of a line; default 79 */
    RUDIGNALS_TAG_GOAL = 3,   /* a number, 1 to 1,000: the columns to aim at; default 74 */
    RUDIGNALS_TAG_TAB = 4,    /* a number, 0 to 100: the columns between tab stops; default 8; 0 acts as 1 */
    RUDIGNALS_TAG_PREFIX = 5, /* 0 to RUDIGNALS_MOST_PREFIX bytes of UTF-8: only lines that begin with it are formatted. It is taken off,
                               * and put before each line again */
    RUDIGNALS_TAG_SKIP = 6    /* the same kind of value: lines that begin with it are not formatted. Every line begins with an empty one */
};

/* Width and goal. Both given: goal <= width <= 2 * goal. Width alone: 6 to 1,000, and goal = min(width * 94 / 100, width - 3). Goal alone:
 * 3 to 940, and width = max(goal * 100 / 94, goal + 3). Quotients are rounded down. */

enum rudignals_flag {
    RUDIGNALS_CROWN = 1,          /* the first two lines of a paragraph may have different indents; turns tagged off */
    RUDIGNALS_TAGGED = 2,         /* the first two lines of a paragraph must have different indents */
    RUDIGNALS_MAIL = 4,           /* mail headers are paragraphs of their own kind */
    RUDIGNALS_SPLIT = 8,          /* long lines are split, and lines are never joined; turns crown and tagged off */
    RUDIGNALS_UNIFORM = 16,       /* one space between words, two between sentences */
    RUDIGNALS_QUICK = 32,         /* lines are filled one by one. Without it (Knuth and Plass) the lines of a paragraph are weighed together */
    RUDIGNALS_EXACT_PREFIX = 64,  /* the prefix must be at the start of the line. Without it blanks may come before */
    RUDIGNALS_EXACT_SKIP = 128,   /* the same for the skip prefix */
    RUDIGNALS_KEEP = 256,         /* a line with a damaged character is kept as it is. Without it the notes are refused */
    RUDIGNALS_GLUE = 512,         /* a no-break space (U+00A0) is part of a word, except beside a blank and at the start or end of a line */
    RUDIGNALS_SENTENCE_CHARACTERS = 1024 /* blanks between sentences are counted in characters. Without it they are counted in bytes, as the
                                          * original does. It has an effect only with uniform */
};

/* Room for a block in which each of the six fields is put once, whatever is put. */
#define RUDIGNALS_MOST_BLOCK (4 * 5 + 2 * (3 + RUDIGNALS_MOST_PREFIX))

/* The first three bytes of a field, for the two functions below. */
static inline void rudignals_put_head(uint8_t *block, size_t at, enum rudignals_tag tag, unsigned length) {
    block[at] = (uint8_t)((unsigned)tag > 255u ? 0u : (unsigned)tag);
    block[at + 1] = (uint8_t)(length >> 8);
    block[at + 2] = (uint8_t)(length & 0xFFu);
}

/* rudignals_put_number - put a number into an option block
 *
 * Writes a field of 5 bytes after the first `at` bytes of the block, and returns the new length of the block. Put fields in the order of their
 * tags. A number over 65,535, and a number for a tag that takes a prefix, is put as 65,535. The library refuses that for every tag: code 1,
 * with N = at if the fields before it are right.
 */
static inline size_t rudignals_put_number(uint8_t *block, size_t at, enum rudignals_tag tag, uint64_t number) {
    if (number > 65535u || tag > RUDIGNALS_TAG_TAB)
        number = 65535u;
    rudignals_put_head(block, at, tag, 2u);
    block[at + 3] = (uint8_t)(number >> 8);
    block[at + 4] = (uint8_t)(number & 0xFFu);
    return at + 5;
}

/* rudignals_put_prefix - put a prefix into an option block
 *
 * Writes a field of 3 + length bytes, 258 at most, after the first `at` bytes of the block, and returns the new length of the block. Put
 * fields in the order of their tags. For a prefix of over RUDIGNALS_MOST_PREFIX bytes, and for a tag that takes a number, it writes a length of
 * 65,535 and no value, 3 bytes. The library refuses that for every tag: code 1, with N = at if the fields before it are right.
 */
static inline size_t rudignals_put_prefix(uint8_t *block, size_t at, enum rudignals_tag tag, const uint8_t *prefix, size_t length) {
    size_t i;
    if (length > RUDIGNALS_MOST_PREFIX || tag < RUDIGNALS_TAG_PREFIX) {
        rudignals_put_head(block, at, tag, 65535u);
        return at + 3;
    }
    rudignals_put_head(block, at, tag, (unsigned)length);
    for (i = 0; i < length; i++)
        block[at + 3 + i] = prefix[i];
    return at + 3 + length;
}

/* ---- Formatting ------------------------------------------------------------------------------------------------------------------------- */

/* rudignals_measure - find out how long the digest of notes is
 *
 * Reads the notes under the options and writes nothing. The answer, the first that applies:
 *
 *    1 options  The option block is faulty. N is the offset of the first faulty field's tag. If each field is right but width and goal do not
 *               go together, N is options_len, which is no offset in the block.
 *    2 long     The notes have over RUDIGNALS_MOST_NOTES bytes. N is 0.
 *    3 text     Keep is off, and the notes have a damaged character: a byte at which no well-formed UTF-8 character (RFC 3629) begins. N is
 *               the offset of the first one.
 *    4 words    A paragraph has over RUDIGNALS_MOST_WORDS words. N is the offset at which the first line of the first such paragraph begins.
 *    0 done     N is the length of the digest in bytes: the least room with which writing is done.
 */
uint64_t rudignals_measure(const uint8_t *options, size_t options_len, const uint8_t *notes, size_t notes_len);

/* rudignals_write - write the digest of notes
 *
 * Formats the notes under the options and writes the digest into output. With the flag quick a line is wider than the width only if it holds a
 * single word (mail headers apart, and apart from U+3000 between words). Without quick that is not promised. The answer, the first that
 * applies:
 *
 *    1 options, 2 long, 3 text
 *               As rudignals_measure answers them. The output is unchanged.
 *    4 words    As rudignals_measure answers it. The output is zero.
 *    5 room     The digest is longer than output_len. N is its length. The output is zero.
 *    0 done     N is the length of the digest, which is in the first N bytes of the output. The bytes after it are unchanged.
 *
 * With at least as many bytes of output as rudignals_measure answers, code 5 is not given.
 */
uint64_t rudignals_write(const uint8_t *options, size_t options_len, const uint8_t *notes, size_t notes_len, uint8_t *output, size_t output_len);

/* rudignals_format - measure and write the digest of notes
 *
 * Calls rudignals_measure and then rudignals_write. It answers and writes what rudignals_write does.
 */
uint64_t rudignals_format(const uint8_t *options, size_t options_len, const uint8_t *notes, size_t notes_len, uint8_t *output, size_t output_len);

/* ---- Large notes ------------------------------------------------------------------------------------------------------------------------ */

/* These calls take notes of up to RUDIGNALS_MOST_LARGE bytes, with paragraphs of any number of words, and use working room that the program
 * lends. Each answers as the call without _large in its name does, except for this:
 *
 *    2 long, 9 long digest
 *               Above RUDIGNALS_MOST_LARGE bytes.
 *    4 words    Never given. Code 12 has its place in the order.
 *   12 work     The working room is smaller than the call needs. N is how many numbers it needs: with that many the same call does not answer
 *               12. The output, the index and the reason are unchanged; *filled and *dashes are 0.
 *    5 room     Also for a digest of more than 4294967295 bytes, a length that N has no room for: N is then 4294967295. rudignals_measure_large
 *               answers it too.
 *
 * work is an array of work_len numbers of 32 bits, with any content. What it holds afterwards is not promised. N of 12 depends on the call, the
 * options and the notes alone. So a program calls with no room, lends N numbers and calls again; or it lends RUDIGNALS_WORK(notes_len) numbers at
 * once, with which no call answers 12. */
#define RUDIGNALS_MOST_LARGE 1048576u    /* bytes of notes, and of a digest that is checked, for these calls */
#define RUDIGNALS_WORK(notes_len) ((size_t)8 * ((size_t)(notes_len) + 1)) /* numbers, for notes of up to RUDIGNALS_MOST_LARGE bytes */

struct rudignals_record;

/* rudignals_measure_large - find out how long the digest of large notes is
 *
 * rudignals_measure for notes of up to RUDIGNALS_MOST_LARGE bytes, in lent working room. With notes that have no paragraph it needs none.
 */
uint64_t rudignals_measure_large(const uint8_t *options, size_t options_len, const uint8_t *notes, size_t notes_len, uint32_t *work, size_t work_len);

/* rudignals_write_large - write the digest of large notes
 *
 * rudignals_write for notes of up to RUDIGNALS_MOST_LARGE bytes, in lent working room. It needs as much of it as rudignals_measure_large.
 */
uint64_t rudignals_write_large(const uint8_t *options, size_t options_len, const uint8_t *notes, size_t notes_len, uint8_t *output, size_t output_len,
                               uint32_t *work, size_t work_len);

/* rudignals_write_indexed_large - write the digest of large notes and an index beside it
 *
 * rudignals_write_indexed for notes of up to RUDIGNALS_MOST_LARGE bytes, in lent working room.
 */
uint64_t rudignals_write_indexed_large(const uint8_t *options, size_t options_len, const uint8_t *notes, size_t notes_len, uint8_t *output, size_t output_len,
                                       struct rudignals_record *index, size_t records, uint64_t *filled, uint32_t *work, size_t work_len);

/* rudignals_explain_large - find out why a line of the digest of large notes ends where it does
 *
 * rudignals_explain for notes of up to RUDIGNALS_MOST_LARGE bytes, in lent working room.
 */
uint64_t rudignals_explain_large(const uint8_t *options, size_t options_len, const uint8_t *notes, size_t notes_len, uint64_t line, uint64_t reason[6],
                                 uint32_t *work, size_t work_len);

/* rudignals_flow_large - write the digest of large notes as mail
 *
 * rudignals_flow for notes of up to RUDIGNALS_MOST_LARGE bytes, in lent working room. With notes that have no paragraph it needs none.
 */
uint64_t rudignals_flow_large(const uint8_t *options, size_t options_len, const uint8_t *notes, size_t notes_len, uint8_t *output, size_t output_len, uint64_t *dashes,
                              uint32_t *work, size_t work_len);

/* rudignals_check_large - check that a digest carries its large notes
 *
 * rudignals_check for notes and a digest of up to RUDIGNALS_MOST_LARGE bytes each, in lent working room.
 */
uint64_t rudignals_check_large(const uint8_t *options, size_t options_len, const uint8_t *notes, size_t notes_len, const uint8_t *digest, size_t digest_len,
                               uint32_t *work, size_t work_len);

/* ---- From a line of the digest back to the notes ------------------------------------------------------------------------------------------ */

/* A record of an index: one paragraph, plain line or blank line of the notes. */
struct rudignals_record {
    uint64_t place;  /* the offset in the notes at which it begins */
    uint64_t length; /* its bytes, line ends included */
    uint64_t first;  /* the first line of the digest that it became, from 0 */
    uint64_t count;  /* how many lines of the digest it became */
};

/* rudignals_write_indexed - write the digest of notes and an index beside it
 *
 * Writes as rudignals_write does, and a record for each paragraph, plain line and blank line of the notes, in order. The records follow each
 * other without a gap, from the first byte of the notes to the last and from the first line of the digest to the last. The answer, the first
 * that applies:
 *
 *    1 options, 2 long, 3 text, 4 words
 *               As rudignals_write answers them.
 *    6 index full
 *               The index has too few records. N is the number of records needed. The output is zero.
 *    5 room     As rudignals_write answers it.
 *    0 done     As rudignals_write answers it. *filled is the number of records that were written. Records after these are unchanged.
 *
 * On every refusal *filled is 0 and every record is unchanged. An index of notes_len records is always enough. With an index of no records a
 * program learns how many are needed.
 */
uint64_t rudignals_write_indexed(const uint8_t *options, size_t options_len, const uint8_t *notes, size_t notes_len, uint8_t *output, size_t output_len,
                                 struct rudignals_record *index, size_t records, uint64_t *filled);

/* rudignals_lookup - find the part of the notes that a line of the digest came from
 *
 * Looks for the first of the filled records that has the line, counted from 0, and puts the offset and the length of its part of the notes into
 * part[0] and part[1]. Returns 1 if it is found. Returns 0, and leaves part unchanged, if no record has the line, if filled is over records, or
 * if the part of that record goes past the end of the notes; no later record is tried then. The records may have any content: no sum overflows.
 */
uint64_t rudignals_lookup(const struct rudignals_record *index, size_t records, uint64_t filled, const uint8_t *notes, size_t notes_len, uint64_t line, uint64_t part[2]);

/* ---- Why a line of the digest ends where it does ------------------------------------------------------------------------------------------ */

/* reason[0]: the kind. The numbers of the kind follow, and the others are 0. They are the numbers that the breaker worked with, not those of
 * the written line: t counts a space before the first word of the line, which is not written, and one space where two are written. */
enum rudignals_reason {
    RUDIGNALS_END_OF_PARAGRAPH = 0, /* the paragraph ends */
    RUDIGNALS_PLAIN_LINE = 1,       /* the line is not formatted */
    RUDIGNALS_BLANK_LINE = 2,       /* the line is blank */
    RUDIGNALS_NOT_FIT = 3,          /* quick, and mail headers: the next word did not fit. Column so far, gap, added space, width of the word:
                                     * together they are more than the width */
    RUDIGNALS_CHOSEN = 4,           /* the breaker chose this break. t, the columns of the line; L, W and D, for its length, its last word and
                                     * its difference from the line before; and the cost of this break alone, (1 + L + W + D) squared */
    RUDIGNALS_FORCED_BEFORE = 5,    /* no line could take the next word, and the break is before it */
    RUDIGNALS_FORCED_AFTER = 6      /* no line could take the next word; the lesser evil was to put it on this line, and the break is after it */
};

/* rudignals_explain - find out why a line of the digest ends where it does
 *
 * Puts the kind and its numbers into reason, for the line of the digest that is counted from 0. It takes as long as measuring, and as long
 * as the line's paragraph takes once more. enum rudignals_reason lists the kinds. The answer, the first that applies:
 *
 *    1 options, 2 long, 3 text, 4 words
 *               As rudignals_measure answers them.
 *    8 no line  The digest has no such line. N is the number of its lines.
 *    0 done     N is 0.
 *
 * On a refusal reason is unchanged.
 */
uint64_t rudignals_explain(const uint8_t *options, size_t options_len, const uint8_t *notes, size_t notes_len, uint64_t line, uint64_t reason[6]);

/* ---- A digest that somebody else made, checked -------------------------------------------------------------------------------------------- */

/* rudignals_check - check that a digest carries its notes
 *
 * Tells whether a digest, made by whatever formatter, is acceptable for the notes and options: its plain and blank lines are those that
 * rudignals_write writes, and the lines of each paragraph have its words once each, in order. Such a line is the right indent, one or more words
 * with at least one blank between two, and a line feed. Where lines break, and how many blanks are between two words, does not matter. Every
 * digest that rudignals_write writes is acceptable, if it is within the limit. Nothing is written. The answer, the first that applies:
 *
 *    1 options, 2 long, 3 text, 4 words
 *               As rudignals_measure answers them for the notes.
 *    9 long digest
 *               The digest has over RUDIGNALS_MOST_NOTES bytes. N is 0.
 *   10 not accepted
 *               The digest is not acceptable. N is the first line, counted from 0, that cannot be right: the lines before it are the beginning
 *               of an acceptable digest, and with this line they are not. If the digest ends too early, N is the line after its last. A last
 *               line without a line feed is never right.
 *    0 done     The digest is acceptable. N is 0.
 */
uint64_t rudignals_check(const uint8_t *options, size_t options_len, const uint8_t *notes, size_t notes_len, const uint8_t *digest, size_t digest_len);

/* ---- The wall panel ----------------------------------------------------------------------------------------------------------------------- */

#define RUDIGNALS_PANEL_ROWS 24u
#define RUDIGNALS_PANEL_COLUMNS 80u
#define RUDIGNALS_PANEL_CELLS (RUDIGNALS_PANEL_ROWS * RUDIGNALS_PANEL_COLUMNS)

/* rudignals_panel - the end of a digest as the cells of a wall panel
 *
 * Puts the last 24 lines of a digest into 24 rows of 80 cells, row by row; a cell is a code point. Fewer lines are at the bottom. A tab moves
 * to the next tab stop and leaves blanks. A wide character takes its cell and a second one, which is 0. A byte that begins no well-formed
 * character is U+FFFD. A line that is longer than its row has `+` in the last cell. All cells are written. A tab width of 0 acts as 1. The
 * answer, the first that applies:
 *
 *    1 options  The tab width is over 100. N is 0. All cells are blank.
 *    0 done     N is 0.
 */
uint64_t rudignals_panel(const uint8_t *digest, size_t digest_len, uint64_t tab, uint32_t cells[RUDIGNALS_PANEL_CELLS]);

/* rudignals_fold - fold a text into rows of at most so many columns
 *
 * Copies a text and puts a line feed before each character that would end past the given columns, unless its row has no character yet.
 * A tab goes to the next tab stop, in a new row to the first. A wide character takes 2 columns and a character of width 0 none. Every other
 * character takes 1, and so does a control character or a byte that begins no well-formed character. A character of width 0 stays in its row; it
 * begins a row only at the start of a line. Lines end at line feeds, and a carriage return just before a line feed takes no column. Line ends
 * stay as they are; a missing last line feed stays missing. The time grows with the length. A tab width of 0 acts as 1. The answer, the first
 * that applies:
 *
 *    1 options  The tab width is over 100, or the columns are 0 or over RUDIGNALS_MOST_COLUMNS. N is 0. The output is unchanged.
 *    2 long     The text has over RUDIGNALS_MOST_TEXT bytes. N is 0. The output is unchanged.
 *    5 room     The folded text is longer than output_len. N is its length. The output is zero.
 *    0 done     N is the length of the folded text, which is in the first N bytes of the output. The bytes after it are unchanged.
 *
 * With two bytes of room for each byte of the text, code 5 is never given; this is proved.
 */
uint64_t rudignals_fold(const uint8_t *text, size_t text_len, uint64_t tab, uint64_t columns, uint8_t *output, size_t output_len);

/* ---- Notes in ISO 8859-1 made readable, and the way back ---------------------------------------------------------------------------------- */

/* rudignals_mend - make notes in ISO 8859-1 readable
 *
 * Copies notes. In a line that is not well-formed UTF-8 (RFC 3629) each byte from 0x80 to 0xFF becomes the two bytes of the same code point.
 * Every other line is copied as it is. Lines end at line feeds only. What was changed goes into a list of two slices, in order: the offset
 * in the old notes into places, and the old byte into bytes. The list has room for as many entries as the shorter slice. Formatting never
 * refuses the copy for a damaged character. The answer, the first that applies:
 *
 *    2 long     The notes have over RUDIGNALS_MOST_NOTES bytes. N is 0.
 *    7 list full
 *               The list is too short. N is the number of entries needed.
 *    5 room     The copy is longer than copy_len. N is its length.
 *    0 done     N is the length of the copy. The list has N - notes_len entries. The rest of the three slices is unchanged.
 *
 * On a refusal, with code 5 too, all three slices are unchanged. 2 * notes_len bytes of copy and notes_len entries are always enough.
 */
uint64_t rudignals_mend(const uint8_t *notes, size_t notes_len, uint8_t *copy, size_t copy_len, uint32_t *places, size_t places_len, uint8_t *bytes, size_t bytes_len);

/* rudignals_restore - bring back the old notes from a mended copy
 *
 * Makes the old notes from a copy and the list of rudignals_mend. Give exactly the entries that are in use. Nothing is lost: from the notes and a
 * list that is accepted the copy can be made again. The answer, the first that applies:
 *
 *    2 long     The copy has over RUDIGNALS_MOST_COPY bytes. N is 0.
 *   11 list     The list does not fit the copy. N is the first entry, counted from 0, that does not: its byte is below 0x80, its offset is not
 *               greater than that of the entry before it, or the copy does not have the byte's two bytes at its offset (plus one for each entry
 *               before it).
 *    5 room     The notes are longer than notes_len. N is their length.
 *    0 done     N is the length of the notes: copy_len minus the number of entries. The bytes after them are unchanged.
 *
 * On a refusal nothing is written.
 */
uint64_t rudignals_restore(const uint8_t *copy, size_t copy_len, const uint32_t *places, size_t places_len, const uint8_t *bytes, size_t bytes_len, uint8_t *notes, size_t notes_len);

/* ---- Mail of format=flowed (RFC 3676, with DelSp=no) -------------------------------------------------------------------------------------- */

/* rudignals_flow - write the digest of notes as mail
 *
 * Writes the digest that rudignals_write writes with quick and uniform on, as the body of mail of format=flowed: lines end in CR LF; every line
 * of a paragraph except the last ends in one space before that; and a line that starts with a space, `>` or `From ` has one space before it. A
 * line of a paragraph that would be `-- ` is written as `--`, since `-- ` begins a signature; *dashes is the number of these. A plain line loses
 * the spaces at its end, unless it is `-- `. What is added to a line does not count in its width. The answer, the first that applies:
 *
 *    1 options  The option block is faulty, as rudignals_measure answers it. Or the block is right, but it has a prefix (an empty one too) or
 *               one of the flags crown, tagged and mail, even where split turns it off: then N is options_len. The output is unchanged.
 *    2 long, 3 text
 *               As rudignals_measure answers them. The output is unchanged.
 *    4 words    As rudignals_measure answers it. The output is zero.
 *    5 room     The mail is longer than output_len. N is its length. The output is zero.
 *    0 done     N is the length of the mail, which is in the first N bytes of the output. The bytes after it are unchanged.
 *
 * On a refusal *dashes is 0. RUDIGNALS_MOST_FLOWED(notes_len) bytes are always enough.
 */
uint64_t rudignals_flow(const uint8_t *options, size_t options_len, const uint8_t *notes, size_t notes_len, uint8_t *output, size_t output_len, uint64_t *dashes);

/* rudignals_unflow - read mail, one line for each paragraph
 *
 * Reads the body of mail of format=flowed and writes each paragraph as one line that ends in CR LF: its quote marks; a space if what follows
 * starts with a space, `>` or `From `; and its lines, joined as they are. A line of the mail ends at a line feed, and a carriage return just
 * before it belongs to the line end. The quote marks `>` of a line are counted, and one space after them is taken off. A line that ends in a
 * space goes on in the next line, if that has as many quote marks and is not the separator `-- `. The separator, which may be quoted, does not
 * go on. The answer, the first that applies:
 *
 *    2 long     The text has over RUDIGNALS_MOST_NOTES bytes. N is 0. The output is unchanged.
 *    5 room     The result is longer than output_len. N is its length. The output is zero.
 *    0 done     N is the length of the result, which is in the first N bytes of the output. The bytes after it are unchanged.
 *
 * RUDIGNALS_MOST_UNFLOWED(text_len) bytes are always enough.
 */
uint64_t rudignals_unflow(const uint8_t *text, size_t text_len, uint8_t *output, size_t output_len);

#ifdef __cplusplus
}
#endif

#endif
