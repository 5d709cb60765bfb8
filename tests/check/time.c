/* How long checking takes by the size of notes and digest, on texts that a slow way of matching would show: for each, processor time of the
 * fastest of 40 calls at 8, 16, 32 and 64 KiB, and by the byte. Exits 1 if a byte of the largest takes over twice that of the smallest. */
#define _POSIX_C_SOURCE 199309L
#include "rudignals.h"

#include <stdio.h>
#include <string.h>
#include <time.h>

#define S "\xC2\xA0" /* U+00A0 */

struct text {
    uint8_t bytes[RUDIGNALS_MOST_NOTES];
    size_t length;
};

static struct text notes, digest;
static uint8_t block[RUDIGNALS_MOST_BLOCK];
static size_t block_len;

static void put(struct text *text, const char *bytes) {
    size_t length = strlen(bytes);
    memcpy(text->bytes + text->length, bytes, length);
    text->length += length;
}

static void both(const char *bytes) {
    put(&notes, bytes);
    put(&digest, bytes);
}

static void feeds(size_t size) {
    while (notes.length < size)
        both("\n");
}

/* One-letter words, 1,000 a paragraph, each on a line of its own. */
static void lines(size_t size) {
    unsigned word;
    for (word = 1; notes.length + 4 < size; word++)
        both(word % 1000 == 0 ? "a\n\n" : "a\n");
}

/* With glue on, gaps in which U+00A0 stand around the blank that parts words. */
static void gaps(size_t size) {
    unsigned word;
    block_len = rudignals_put_number(block, 0, RUDIGNALS_TAG_FLAGS, RUDIGNALS_GLUE);
    both("a");
    for (word = 1; digest.length + 12 < size; word++) {
        put(&notes, word % 1000 == 0 ? "\n\n" : " ");
        put(&digest, word % 1000 == 0 ? "\n\n" : S S " " S);
        both("a");
    }
    both("\n");
}

/* Words that begin with many U+00A0 of their own. */
static void own_spaces(size_t size) {
    unsigned word;
    size_t i;
    block_len = rudignals_put_number(block, 0, RUDIGNALS_TAG_FLAGS, RUDIGNALS_GLUE);
    block_len = rudignals_put_prefix(block, block_len, RUDIGNALS_TAG_PREFIX, (const uint8_t *)">", 1);
    for (word = 0; word < 7; word++) {
        put(&notes, ">");
        put(&digest, word == 0 ? ">" : "  ");
        for (i = 0; i < size / 16; i++)
            both(S);
        put(&notes, "a\n");
        put(&digest, "a");
    }
    put(&digest, "\n");
}

static void one_gap(size_t size) {
    put(&notes, "a b\n");
    put(&digest, "a");
    while (digest.length + 2 < size)
        put(&digest, " ");
    put(&digest, "b\n");
}

static void damaged(size_t size) {
    block_len = rudignals_put_number(block, 0, RUDIGNALS_TAG_FLAGS, RUDIGNALS_KEEP);
    while (notes.length + 2 <= size)
        both("\xB0\n");
}

/* Words that are only counted. */
static void fault(size_t size) {
    lines(size);
    digest.length = 0;
    put(&digest, "x\n");
}

static void one_word(size_t size) {
    while (notes.length + 1 < size)
        both("a");
    both("\n");
}

static double microseconds(uint32_t code) {
    struct timespec from, to;
    double least = 1e12, spent;
    uint64_t answer = 0;
    int i;
    for (i = 0; i < 40; i++) {
        clock_gettime(CLOCK_PROCESS_CPUTIME_ID, &from);
        answer = rudignals_check(block, block_len, notes.bytes, notes.length, digest.bytes, digest.length);
        clock_gettime(CLOCK_PROCESS_CPUTIME_ID, &to);
        spent = (double)(to.tv_sec - from.tv_sec) * 1e6 + (double)(to.tv_nsec - from.tv_nsec) / 1e3;
        if (spent < least)
            least = spent;
    }
    return rudignals_code_of(answer) == code ? least : -1;
}

int main(void) {
    static const struct {
        const char *name;
        void (*make)(size_t size);
        uint32_t code;
    } rows[] = {{"line feeds", feeds, 0},        {"one-letter words, a line each", lines, 0}, {"gaps of U+00A0, glue", gaps, 0},
                {"words of U+00A0, glue", own_spaces, 0}, {"one gap", one_gap, 0},                     {"damaged lines, keep", damaged, 0},
                {"a fault at the start", fault, 10},      {"one word", one_word, 0}};
    size_t row, size;
    int status = 0;
    for (row = 0; row < sizeof rows / sizeof rows[0]; row++) {
        double first = 0, each = 0;
        printf("%-30s", rows[row].name);
        for (size = 8192; size <= RUDIGNALS_MOST_NOTES; size *= 2) {
            double spent;
            notes.length = digest.length = block_len = 0;
            rows[row].make(size);
            spent = microseconds(rows[row].code);
            each = spent * 1e3 / (double)(notes.length + digest.length);
            first = size == 8192 ? each : first;
            printf(" %8.1f us", spent);
            status |= spent < 0;
        }
        printf(" %6.1f ns a byte\n", each);
        status |= each > 2 * first;
    }
    return status;
}
