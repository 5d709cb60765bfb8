/* The header and the border of the call, as a host meets them: compiled as C11 and as C++17, with the caller under sanitizers. What is
 * expected is written from docs/RULES.md and the header's own words. Says the first thing that is not so and exits 1. */
#include "rudignals.h"

#include <stdio.h>
#include <stdlib.h>
#include <string.h>

#define NOTES ((const uint8_t *)"a b\nc\n")
#define NOTES_LEN 6u
#define DIGEST "a b c\n"
#define MARK 0xA5

static unsigned long checks;

#define CHECK(true_that) check((true_that), #true_that, __LINE__)

static void check(int holds, const char *words, int line) {
    checks++;
    if (holds)
        return;
    fprintf(stderr, "header.c:%d: not so: %s\n", line, words);
    exit(1);
}

static uint64_t told(uint32_t code, uint32_t number) { return ((uint64_t)code << 32) + number; }

/* memcmp may not be given null, and the parts here are. */
static int all_are(const uint8_t *bytes, size_t length, uint8_t value) {
    size_t i;
    for (i = 0; i < length && bytes[i] == value; i++)
        ;
    return i == length;
}

/* ---- a null pointer with length 0 is an empty part */

static void null_block(void) {
    uint8_t output[8];
    memset(output, MARK, sizeof output);
    CHECK(rudignals_format(NULL, 0, NOTES, NOTES_LEN, output, sizeof output) == told(RUDIGNALS_DONE, 6));
    CHECK(memcmp(output, DIGEST, 6) == 0 && all_are(output + 6, 2, MARK));
}

static void null_notes(void) {
    uint8_t block[RUDIGNALS_MOST_BLOCK], output[4];
    unsigned flags;
    memset(output, MARK, sizeof output);
    CHECK(rudignals_format(NULL, 0, NULL, 0, output, sizeof output) == told(RUDIGNALS_DONE, 0));
    for (flags = 0; flags < 2048; flags++) {
        size_t len = rudignals_put_number(block, 0, RUDIGNALS_TAG_FLAGS, flags);
        len = rudignals_put_prefix(block, len, RUDIGNALS_TAG_PREFIX, NULL, 0);
        len = rudignals_put_prefix(block, len, RUDIGNALS_TAG_SKIP, NULL, 0);
        CHECK(len == 11);
        CHECK(rudignals_format(block, len, NULL, 0, output, sizeof output) == told(RUDIGNALS_DONE, 0));
        CHECK(rudignals_format(block, len, NULL, 0, NULL, 0) == told(RUDIGNALS_DONE, 0));
    }
    CHECK(all_are(output, sizeof output, MARK));
}

static void null_output(void) {
    static uint8_t notes[RUDIGNALS_MOST_NOTES + 1];
    uint8_t block[5];
    size_t i, len = rudignals_put_number(block, 0, RUDIGNALS_TAG_FLAGS, 2048);
    CHECK(rudignals_format(NULL, 0, NULL, 0, NULL, 0) == told(RUDIGNALS_DONE, 0));
    CHECK(rudignals_format(block, len, NOTES, NOTES_LEN, NULL, 0) == told(RUDIGNALS_OPTIONS, 0));
    for (i = 0; i < sizeof notes; i++)
        notes[i] = i % 2 == 0 ? 'a' : ' ';
    CHECK(rudignals_format(NULL, 0, notes, sizeof notes, NULL, 0) == told(RUDIGNALS_LONG, 0));
    CHECK(rudignals_format(NULL, 0, (const uint8_t *)"a\n\xB0", 3, NULL, 0) == told(RUDIGNALS_TEXT, 2));
    notes[0] = '\n';
    CHECK(rudignals_format(NULL, 0, notes, RUDIGNALS_MOST_NOTES, NULL, 0) == told(RUDIGNALS_WORDS, 1));
    CHECK(rudignals_format(NULL, 0, NOTES, NOTES_LEN, NULL, 0) == told(RUDIGNALS_ROOM, 6));
}

/* ---- the table of codes: N, and the output afterwards */

static void codes(void) {
    static uint8_t notes[RUDIGNALS_MOST_NOTES + 1];
    uint8_t block[16], output[5];
    size_t i, len;
    memset(output, MARK, sizeof output);
    len = rudignals_put_number(block, 0, RUDIGNALS_TAG_WIDTH, 60);
    len = rudignals_put_number(block, len, RUDIGNALS_TAG_TAB, 101);
    CHECK(rudignals_format(block, len, NOTES, NOTES_LEN, output, sizeof output) == told(RUDIGNALS_OPTIONS, 5));
    len = rudignals_put_number(block, 0, RUDIGNALS_TAG_WIDTH, 60);
    len = rudignals_put_number(block, len, RUDIGNALS_TAG_GOAL, 29);
    CHECK(rudignals_format(block, len, NOTES, NOTES_LEN, output, sizeof output) == told(RUDIGNALS_OPTIONS, 10)); /* no place in the block */
    CHECK(rudignals_format(NULL, 0, notes, sizeof notes, output, sizeof output) == told(RUDIGNALS_LONG, 0));
    CHECK(rudignals_format(NULL, 0, (const uint8_t *)"ab\xC2", 3, output, sizeof output) == told(RUDIGNALS_TEXT, 2));
    CHECK(all_are(output, sizeof output, MARK));
    for (i = 0; i < sizeof notes; i++)
        notes[i] = i % 2 == 0 ? 'a' : ' ';
    notes[3] = notes[4] = notes[5] = '\n'; /* the breaks between 1,024 words of one letter are a byte each, and one is at the end */
    CHECK(rudignals_format(NULL, 0, notes, 6 + 2 * 1024, output, sizeof output) == told(RUDIGNALS_ROOM, 6 + 2 * 1024));
    CHECK(all_are(output, sizeof output, 0));
    memset(output, MARK, sizeof output);
    CHECK(rudignals_format(NULL, 0, notes, 6 + 2 * 1025, output, sizeof output) == told(RUDIGNALS_WORDS, 6));
    CHECK(all_are(output, sizeof output, 0));
    memset(output, MARK, sizeof output);
    CHECK(rudignals_format(NULL, 0, NOTES, NOTES_LEN, output, sizeof output) == told(RUDIGNALS_ROOM, 6));
    CHECK(all_are(output, sizeof output, 0));
    CHECK(rudignals_code_of(told(5, 6)) == 5 && rudignals_number_of(told(5, 6)) == 6);
}

/* ---- folding: null parts, its codes, and the output afterwards */

static void folding(void) {
    static const uint8_t text[] = {'a', 'b', 'c'};
    uint8_t output[6];
    memset(output, MARK, sizeof output);
    CHECK(rudignals_fold(NULL, 0, 8, 80, NULL, 0) == told(RUDIGNALS_DONE, 0));
    CHECK(rudignals_fold(NULL, 0, 8, 80, output, sizeof output) == told(RUDIGNALS_DONE, 0));
    CHECK(rudignals_fold(text, sizeof text, 8, 2, NULL, 0) == told(RUDIGNALS_ROOM, 4));
    CHECK(rudignals_fold(text, sizeof text, 101, 2, output, sizeof output) == told(RUDIGNALS_OPTIONS, 0));
    CHECK(rudignals_fold(text, sizeof text, 8, 0, output, sizeof output) == told(RUDIGNALS_OPTIONS, 0));
    CHECK(rudignals_fold(text, sizeof text, 8, RUDIGNALS_MOST_COLUMNS + 1, output, sizeof output) == told(RUDIGNALS_OPTIONS, 0));
    CHECK(all_are(output, sizeof output, MARK));
    CHECK(rudignals_fold(text, sizeof text, 100, RUDIGNALS_MOST_COLUMNS, output, 3) == told(RUDIGNALS_DONE, 3));
    CHECK(memcmp(output, text, 3) == 0 && all_are(output + 3, 3, MARK));
    CHECK(rudignals_fold(text, sizeof text, 8, 2, output, sizeof output) == told(RUDIGNALS_DONE, 4));
    CHECK(memcmp(output, "ab\nc", 4) == 0 && all_are(output + 4, 2, MARK));
    CHECK(rudignals_fold(text, sizeof text, 8, 2, output, 3) == told(RUDIGNALS_ROOM, 4));
    CHECK(all_are(output, 3, 0) && output[3] == 'c');
    CHECK(RUDIGNALS_MOST_TEXT == 1073741824u);
}

/* ---- what is put too large is refused */

/* the room is a block of memory of its own, so that a byte too many is seen */
static uint64_t with_number(enum rudignals_tag tag, uint64_t number) {
    uint8_t *block = (uint8_t *)malloc(5);
    uint8_t output[8];
    uint64_t answer;
    if (block == NULL)
        abort();
    CHECK(rudignals_put_number(block, 0, tag, number) == 5);
    answer = rudignals_format(block, 5, NOTES, NOTES_LEN, output, sizeof output);
    free(block);
    return answer;
}

static int number_refused(enum rudignals_tag tag, uint64_t number) {
    uint64_t answer = with_number(tag, number);
    CHECK(rudignals_code_of(answer) == RUDIGNALS_DONE || rudignals_code_of(answer) == RUDIGNALS_OPTIONS);
    return rudignals_code_of(answer) == RUDIGNALS_OPTIONS;
}

static void numbers(void) {
    static const uint64_t large[] = {65535, 65536, 65546, 65536 + 60, 0x100000000u + 60, (uint64_t)-60, (uint64_t)-1};
    uint64_t n;
    size_t i;
    for (n = 0; n < 2100; n++) {
        CHECK(number_refused(RUDIGNALS_TAG_FLAGS, n) == (n >= 2048));
        CHECK(number_refused(RUDIGNALS_TAG_WIDTH, n) == (n < 6 || n > 1000));
        CHECK(number_refused(RUDIGNALS_TAG_GOAL, n) == (n < 3 || n > 940));
        CHECK(number_refused(RUDIGNALS_TAG_TAB, n) == (n > 100));
        CHECK(number_refused(RUDIGNALS_TAG_PREFIX, n) && number_refused(RUDIGNALS_TAG_SKIP, n));
    }
    for (i = 0; i < sizeof large / sizeof large[0]; i++) {
        int tag;
        for (tag = 1; tag <= 6; tag++)
            CHECK(with_number((enum rudignals_tag)tag, large[i]) == told(RUDIGNALS_OPTIONS, 0));
    }
    for (n = 0; n < 256; n++)
        if (n < 1 || n > 6)
            CHECK(number_refused((enum rudignals_tag)n, 60));
}

static void width_and_goal(void) {
    uint8_t block[10];
    unsigned width, goal;
    for (width = 0; width <= 1001; width++)
        for (goal = 0; goal <= 1001; goal++) {
            size_t len = rudignals_put_number(block, 0, RUDIGNALS_TAG_WIDTH, width);
            int in_range = width >= 1 && width <= 1000 && goal >= 1 && goal <= 1000;
            uint32_t place = width < 1 || width > 1000 ? 0 : in_range ? 10 : 5;
            uint64_t answer;
            len = rudignals_put_number(block, len, RUDIGNALS_TAG_GOAL, goal);
            answer = rudignals_format(block, len, NULL, 0, NULL, 0);
            CHECK(answer == (in_range && goal <= width && width <= 2 * goal ? told(RUDIGNALS_DONE, 0) : told(RUDIGNALS_OPTIONS, place)));
        }
}

static uint64_t with_prefix(enum rudignals_tag tag, size_t length, size_t put) {
    static uint8_t prefix[70000];
    uint8_t *block = (uint8_t *)malloc(5 + put + 5);
    size_t len;
    uint64_t answer;
    if (block == NULL)
        abort();
    memset(prefix, '>', sizeof prefix);
    len = rudignals_put_number(block, 0, RUDIGNALS_TAG_FLAGS, RUDIGNALS_KEEP);
    CHECK(rudignals_put_prefix(block, len, tag, prefix, length) == 5 + put);
    answer = rudignals_format(block, 5 + put, NOTES, NOTES_LEN, NULL, 0);
    /* a field behind it changes nothing */
    len = rudignals_put_number(block, 5 + put, RUDIGNALS_TAG_TAB, 8);
    CHECK(rudignals_code_of(answer) != RUDIGNALS_OPTIONS || rudignals_format(block, len, NOTES, NOTES_LEN, NULL, 0) == answer);
    free(block);
    return answer;
}

static void prefixes(void) {
    static const size_t large[] = {256, 257, 65535, 65536, 65538, SIZE_MAX};
    size_t length, i;
    for (length = 0; length <= 255; length++) {
        /* both lines are without the prefix, or empty behind it; the empty prefix is found in every line */
        CHECK(with_prefix(RUDIGNALS_TAG_PREFIX, length, 3 + length) == told(RUDIGNALS_ROOM, 6));
        CHECK(with_prefix(RUDIGNALS_TAG_SKIP, length, 3 + length) == told(RUDIGNALS_ROOM, 6));
    }
    for (i = 0; i < sizeof large / sizeof large[0]; i++) {
        CHECK(with_prefix(RUDIGNALS_TAG_PREFIX, large[i], 3) == told(RUDIGNALS_OPTIONS, 5));
        CHECK(with_prefix(RUDIGNALS_TAG_SKIP, large[i], 3) == told(RUDIGNALS_OPTIONS, 5));
    }
    for (length = 0; length <= 4; length++)
        for (i = 1; i <= 4; i++)
            CHECK(with_prefix((enum rudignals_tag)i, length, 3) == told(RUDIGNALS_OPTIONS, 5));
}

/* The six fields put once, each as long as it gets, are within RUDIGNALS_MOST_BLOCK, and they are what is documented. */
static void whole_block(void) {
    uint8_t *block = (uint8_t *)malloc(RUDIGNALS_MOST_BLOCK);
    uint8_t prefix[RUDIGNALS_MOST_PREFIX], output[6];
    size_t len;
    if (block == NULL)
        abort();
    memset(prefix, '#', sizeof prefix);
    len = rudignals_put_number(block, 0, RUDIGNALS_TAG_FLAGS, 0x1A4);
    len = rudignals_put_number(block, len, RUDIGNALS_TAG_WIDTH, 1000);
    len = rudignals_put_number(block, len, RUDIGNALS_TAG_GOAL, 500);
    len = rudignals_put_number(block, len, RUDIGNALS_TAG_TAB, 100);
    CHECK(memcmp(block, "\1\0\2\1\xA4\2\0\2\3\xE8\3\0\2\1\xF4\4\0\2\0\x64", len) == 0);
    len = rudignals_put_prefix(block, len, RUDIGNALS_TAG_PREFIX, prefix, sizeof prefix);
    CHECK(memcmp(block + 20, "\5\0\xFF#", 4) == 0);
    len = rudignals_put_prefix(block, len, RUDIGNALS_TAG_SKIP, prefix, sizeof prefix);
    CHECK(len == RUDIGNALS_MOST_BLOCK);
    CHECK(rudignals_format(block, len, NOTES, NOTES_LEN, output, sizeof output) == told(RUDIGNALS_DONE, 6));
    CHECK(memcmp(output, NOTES, 6) == 0);
    free(block);
}

/* ---- the most that a digest can have: an indent as long as may be before each of 1,024 words */

static uint32_t longest(size_t notes_len) {
    static uint8_t notes[RUDIGNALS_MOST_NOTES];
    uint8_t block[5];
    size_t words = notes_len / 2 < RUDIGNALS_MOST_WORDS ? notes_len / 4 : RUDIGNALS_MOST_WORDS, i;
    uint64_t answer;
    rudignals_put_number(block, 0, RUDIGNALS_TAG_WIDTH, 6);
    memset(notes, ' ', notes_len);
    for (i = 0; i < words; i++)
        notes[notes_len - 1 - 2 * i] = 'a';
    answer = rudignals_format(block, 5, notes, notes_len, NULL, 0);
    CHECK(rudignals_code_of(answer) == RUDIGNALS_ROOM);
    return rudignals_number_of(answer);
}

static void most(void) {
    size_t notes_len;
    uint32_t digest = 0;
    for (notes_len = 8; notes_len <= RUDIGNALS_MOST_NOTES; notes_len *= 2) {
        digest = longest(notes_len);
        CHECK(digest <= RUDIGNALS_MOST_DIGEST(notes_len));
    }
    printf("header: the longest digest tried: %lu bytes of %lu; at most %lu are promised\n", (unsigned long)digest, (unsigned long)RUDIGNALS_MOST_NOTES,
           (unsigned long)RUDIGNALS_MOST_DIGEST(RUDIGNALS_MOST_NOTES));
}

/* ---- a digest checked against its notes */

static void checked(void) {
    static uint8_t spaced[RUDIGNALS_MOST_NOTES + 1];
    const uint8_t *digest = (const uint8_t *)DIGEST;
    CHECK(rudignals_check(NULL, 0, NULL, 0, NULL, 0) == told(RUDIGNALS_DONE, 0));
    CHECK(rudignals_check(NULL, 0, NOTES, NOTES_LEN, digest, 6) == told(RUDIGNALS_DONE, 0));
    CHECK(rudignals_check(NULL, 0, NOTES, NOTES_LEN, NULL, 0) == told(RUDIGNALS_NOT_ACCEPTED, 0));
    CHECK(rudignals_check(NULL, 0, NULL, 0, digest, 6) == told(RUDIGNALS_NOT_ACCEPTED, 0));
    CHECK(rudignals_check(NULL, 0, NOTES, NOTES_LEN, NOTES, 4) == told(RUDIGNALS_NOT_ACCEPTED, 1));
    CHECK(rudignals_check(NULL, 0, NOTES, NOTES_LEN, digest, 5) == told(RUDIGNALS_NOT_ACCEPTED, 0));
    CHECK(rudignals_check((const uint8_t *)"\1", 1, (const uint8_t *)"\xB0", 1, spaced, sizeof spaced) == told(RUDIGNALS_OPTIONS, 0));
    CHECK(rudignals_check(NULL, 0, (const uint8_t *)"a\xB0", 2, spaced, sizeof spaced) == told(RUDIGNALS_TEXT, 1));
    memset(spaced, ' ', sizeof spaced);
    memcpy(spaced, "a b", 3);
    memcpy(spaced + sizeof spaced - 2, "c\n", 2);
    CHECK(rudignals_check(NULL, 0, NOTES, NOTES_LEN, spaced, sizeof spaced) == told(RUDIGNALS_LONG_DIGEST, 0));
    memcpy(spaced + sizeof spaced - 3, "c\n", 2);
    CHECK(rudignals_check(NULL, 0, NOTES, NOTES_LEN, spaced, sizeof spaced - 1) == told(RUDIGNALS_DONE, 0));
}

/* ---- the room that is always enough: for mail, written and read */

static void most_mail(void) {
    static uint8_t notes[RUDIGNALS_MOST_NOTES];
    uint8_t block[5], text[2];
    uint64_t answer, dashes;
    size_t notes_len, i;
    unsigned pair, most_read = 0;
    rudignals_put_number(block, 0, RUDIGNALS_TAG_WIDTH, 6);
    for (notes_len = 4096; notes_len <= sizeof notes; notes_len *= 2) {
        memset(notes, ' ', notes_len);
        for (i = 0; i < RUDIGNALS_MOST_WORDS; i++)
            notes[notes_len - 1 - 2 * i] = 'a';
        answer = rudignals_flow(block, 5, notes, notes_len, NULL, 0, &dashes);
        CHECK(rudignals_code_of(answer) == RUDIGNALS_ROOM && rudignals_number_of(answer) <= RUDIGNALS_MOST_FLOWED(notes_len));
    }
    CHECK(RUDIGNALS_MOST_FLOWED(2) == 6240 && RUDIGNALS_MOST_UNFLOWED(3) == 12 && RUDIGNALS_MOST_DIGEST(2) == 2080);
    for (pair = 0; pair < 65536; pair++) {
        text[0] = (uint8_t)(pair >> 8), text[1] = (uint8_t)(pair & 255u);
        for (i = 1; i <= 2; i++) {
            answer = rudignals_unflow(text, i, NULL, 0);
            CHECK(rudignals_number_of(answer) <= RUDIGNALS_MOST_UNFLOWED(i));
            if (rudignals_number_of(answer) > 2 * i)
                most_read++;
        }
    }
    CHECK(most_read > 0); /* two bytes for each would not be enough */
}

/* ---- the calls in lent working room: null room, code 12 and what it leaves, the room that is always enough */

static uint32_t room[RUDIGNALS_WORK(16)]; /* a constant expression */

static void lent_room(void) {
    uint8_t output[8];
    uint64_t filled = 5, dashes = 5, reason[6] = {9, 9, 9, 9, 9, 9};
    struct rudignals_record index[2];
    uint32_t need;
    memset(output, MARK, sizeof output);
    memset(index, MARK, sizeof index);
    CHECK(rudignals_measure_large(NULL, 0, NULL, 0, NULL, 0) == told(RUDIGNALS_DONE, 0));
    need = rudignals_number_of(rudignals_measure_large(NULL, 0, NOTES, NOTES_LEN, NULL, 0));
    CHECK(need > 0 && need <= RUDIGNALS_WORK(NOTES_LEN));
    CHECK(rudignals_measure_large(NULL, 0, NOTES, NOTES_LEN, room, need - 1) == told(RUDIGNALS_WORK_ROOM, need));
    CHECK(rudignals_measure_large(NULL, 0, NOTES, NOTES_LEN, room, need) == told(RUDIGNALS_DONE, 6));
    CHECK(rudignals_write_large(NULL, 0, NOTES, NOTES_LEN, output, sizeof output, NULL, 0) == told(RUDIGNALS_WORK_ROOM, need));
    CHECK(rudignals_code_of(rudignals_write_indexed_large(NULL, 0, NOTES, NOTES_LEN, output, sizeof output, index, 2, &filled, NULL, 0)) == RUDIGNALS_WORK_ROOM && filled == 0);
    CHECK(rudignals_code_of(rudignals_explain_large(NULL, 0, NOTES, NOTES_LEN, 0, reason, NULL, 0)) == RUDIGNALS_WORK_ROOM && reason[0] == 9 && reason[5] == 9);
    CHECK(rudignals_code_of(rudignals_flow_large(NULL, 0, NOTES, NOTES_LEN, output, sizeof output, &dashes, NULL, 0)) == RUDIGNALS_WORK_ROOM && dashes == 0);
    CHECK(rudignals_code_of(rudignals_check_large(NULL, 0, NOTES, NOTES_LEN, output, 0, NULL, 0)) == RUDIGNALS_WORK_ROOM);
    CHECK(all_are(output, sizeof output, MARK) && all_are((const uint8_t *)index, sizeof index, MARK));
    CHECK(rudignals_write_large(NULL, 0, NOTES, NOTES_LEN, output, 5, room, RUDIGNALS_WORK(NOTES_LEN)) == told(RUDIGNALS_ROOM, 6));
    CHECK(all_are(output, 5, 0));
    CHECK(rudignals_write_large(NULL, 0, NOTES, NOTES_LEN, output, sizeof output, room, RUDIGNALS_WORK(NOTES_LEN)) == told(RUDIGNALS_DONE, 6));
    CHECK(memcmp(output, DIGEST, 6) == 0);
    CHECK(rudignals_write_indexed_large(NULL, 0, NOTES, NOTES_LEN, output, sizeof output, index, 2, &filled, room, RUDIGNALS_WORK(NOTES_LEN)) == told(RUDIGNALS_DONE, 6));
    CHECK(filled == 1 && index[0].place == 0 && index[0].length == 6 && index[0].first == 0 && index[0].count == 1);
    CHECK(rudignals_explain_large(NULL, 0, NOTES, NOTES_LEN, 0, reason, room, RUDIGNALS_WORK(NOTES_LEN)) == told(RUDIGNALS_DONE, 0) && reason[0] == RUDIGNALS_END_OF_PARAGRAPH);
    CHECK(rudignals_flow_large(NULL, 0, NOTES, NOTES_LEN, output, sizeof output, &dashes, room, RUDIGNALS_WORK(NOTES_LEN)) == told(RUDIGNALS_DONE, 7));
    CHECK(rudignals_check_large(NULL, 0, NOTES, NOTES_LEN, (const uint8_t *)DIGEST, 6, room, RUDIGNALS_WORK(NOTES_LEN)) == told(RUDIGNALS_DONE, 0));
}

/* Words of one letter, one byte between two: the digest is as long as the notes. */
static void large_notes(void) {
    static uint8_t notes[RUDIGNALS_MOST_LARGE + 1];
    uint32_t *work = (uint32_t *)malloc(RUDIGNALS_WORK(RUDIGNALS_MOST_LARGE) * sizeof *work);
    size_t i;
    if (work == NULL)
        abort();
    for (i = 0; i < sizeof notes; i++)
        notes[i] = i % 2 == 0 ? 'a' : ' ';
    CHECK(rudignals_measure(NULL, 0, notes, 70000) == told(RUDIGNALS_LONG, 0));
    CHECK(rudignals_measure_large(NULL, 0, notes, 70000, work, RUDIGNALS_WORK(70000)) == told(RUDIGNALS_DONE, 70000));
    CHECK(rudignals_measure_large(NULL, 0, notes, RUDIGNALS_MOST_LARGE, work, RUDIGNALS_WORK(RUDIGNALS_MOST_LARGE)) == told(RUDIGNALS_DONE, RUDIGNALS_MOST_LARGE));
    CHECK(rudignals_measure_large(NULL, 0, notes, RUDIGNALS_MOST_LARGE + 1, work, RUDIGNALS_WORK(RUDIGNALS_MOST_LARGE)) == told(RUDIGNALS_LONG, 0));
    CHECK(rudignals_check_large(NULL, 0, NOTES, NOTES_LEN, notes, RUDIGNALS_MOST_LARGE + 1, work, 1000) == told(RUDIGNALS_LONG_DIGEST, 0));
    free(work);
}

/* ---- what answers text */

static void words(void) {
    uint32_t code, other;
    for (code = RUDIGNALS_DONE; code <= RUDIGNALS_WORK_ROOM; code++)
        for (other = code + 1; other <= RUDIGNALS_WORK_ROOM + 1; other++)
            CHECK(strcmp(rudignals_code_words(code), rudignals_code_words(other)) != 0);
    CHECK(strcmp(rudignals_code_words(RUDIGNALS_DONE), "done") == 0);
    CHECK(strcmp(rudignals_code_words(RUDIGNALS_TEXT), "a character of the notes is damaged") == 0);
    CHECK(strcmp(rudignals_code_words(RUDIGNALS_WORK_ROOM + 1), "unknown code") == 0 && strcmp(rudignals_code_words(UINT32_MAX), "unknown code") == 0);
}

static void version(void) {
    char words[32];
    CHECK(strcmp(rudignals_version(), RUDIGNALS_VERSION) == 0);
    snprintf(words, sizeof words, "%d.%d.%d", RUDIGNALS_VERSION_MAJOR, RUDIGNALS_VERSION_MINOR, RUDIGNALS_VERSION_PATCH);
    CHECK(strcmp(words, RUDIGNALS_VERSION) == 0);
}

int main(void) {
    null_block();
    null_notes();
    null_output();
    codes();
    folding();
    numbers();
    width_and_goal();
    prefixes();
    whole_block();
    most();
    most_mail();
    checked();
    lent_room();
    large_notes();
    words();
    version();
    printf("header: %lu checks, version %s\n", checks, RUDIGNALS_VERSION);
    return 0;
}
