/* Measures the stack that the calls use: each text is measured, written and formatted by threads whose stack was painted before, and the
 * lowest byte that lost its paint is looked for. So are a panel, writing with an index and mail that is read. Prints a line for each text and the greatest, and exits 1 if that is over MOST or if
 * measuring a text took more than writing it. */
#define _XOPEN_SOURCE 700 /* pthread_attr_setstack */
#include "rudignals.h"

#include <pthread.h>
#include <stdio.h>
#include <stdlib.h>
#include <string.h>

#define MOST (256u * 1024u)
#define STACK (4u * MOST)
#define PAINT 0x9E3779B97F4A7C15u
#define OUTPUT (8u * 1024u * 1024u)

static _Alignas(4096) uint64_t stack[STACK / sizeof(uint64_t)];
static uint8_t output[OUTPUT];
static size_t greatest;
static int more; /* measuring took more than writing */

struct call {
    const char *name;
    uint8_t block[RUDIGNALS_MOST_BLOCK];
    size_t block_len;
    uint8_t notes[RUDIGNALS_MOST_NOTES + 1];
    size_t notes_len, room;
    uint32_t code;            /* the one expected */
    uint64_t answer;
    const unsigned char *top; /* the caller's frame: what lies below it is the call's */
};

static struct call call;

static void *make_measure(void *unused) {
    unsigned char here = 0;
    call.top = &here;
    call.answer = rudignals_measure(call.block, call.block_len, call.notes, call.notes_len);
    return unused;
}

static void *make_write(void *unused) {
    unsigned char here = 0;
    call.top = &here;
    call.answer = rudignals_write(call.block, call.block_len, call.notes, call.notes_len, output, call.room);
    return unused;
}

static void *make_format(void *unused) {
    unsigned char here = 0;
    call.top = &here;
    call.answer = rudignals_format(call.block, call.block_len, call.notes, call.notes_len, output, call.room);
    return unused;
}

static void *make_panel(void *unused) {
    static uint32_t cells[RUDIGNALS_PANEL_CELLS];
    unsigned char here = 0;
    call.top = &here;
    call.answer = rudignals_panel(call.notes, call.notes_len, 8, cells);
    return unused;
}

static void *make_fold(void *unused) {
    unsigned char here = 0;
    call.top = &here;
    call.answer = rudignals_fold(call.notes, call.notes_len, 8, 79, output, call.room);
    return unused;
}

static void *make_indexed(void *unused) {
    static struct rudignals_record index[RUDIGNALS_MOST_NOTES];
    uint64_t filled;
    unsigned char here = 0;
    call.top = &here;
    call.answer = rudignals_write_indexed(call.block, call.block_len, call.notes, call.notes_len, output, call.room, index, RUDIGNALS_MOST_NOTES, &filled);
    return unused;
}

static void *make_unflow(void *unused) {
    unsigned char here = 0;
    call.top = &here;
    call.answer = rudignals_unflow(call.notes, call.notes_len, output, OUTPUT);
    return unused;
}

/* The digest stands in the output. */
static void *make_check(void *unused) {
    unsigned char here = 0;
    call.top = &here;
    call.answer = rudignals_check(call.block, call.block_len, call.notes, call.notes_len, output, call.room);
    return unused;
}

static void *make_flow(void *unused) {
    uint64_t dashes;
    unsigned char here = 0;
    call.top = &here;
    call.answer = rudignals_flow(call.block, call.block_len, call.notes, call.notes_len, output, call.room, &dashes);
    return unused;
}

static void *make_explain(void *unused) {
    uint64_t reason[6];
    unsigned char here = 0;
    call.top = &here;
    call.answer = rudignals_explain(call.block, call.block_len, call.notes, call.notes_len, 100, reason);
    return unused;
}

static void on_the_painted_stack(void *(*run)(void *)) {
    pthread_attr_t attributes;
    pthread_t thread;
    size_t i;
    for (i = 0; i < STACK / sizeof stack[0]; i++)
        stack[i] = PAINT;
    if (pthread_attr_init(&attributes) != 0 || pthread_attr_setstack(&attributes, stack, STACK) != 0 || pthread_create(&thread, &attributes, run, NULL) != 0 ||
        pthread_join(thread, NULL) != 0) {
        fputs("stack: no thread\n", stderr);
        exit(2);
    }
}

static size_t used(void) {
    size_t i = 0;
    while (i < STACK / sizeof stack[0] && stack[i] == PAINT)
        i++;
    return (size_t)(call.top - (const unsigned char *)&stack[i]);
}

static size_t used_by(void *(*run)(void *), uint32_t code) {
    size_t bytes;
    on_the_painted_stack(run);
    bytes = used();
    if (bytes > greatest)
        greatest = bytes;
    if (rudignals_code_of(call.answer) != code) {
        fprintf(stderr, "stack: %s: code %lu, not %lu\n", call.name, (unsigned long)rudignals_code_of(call.answer), (unsigned long)code);
        exit(2);
    }
    return bytes;
}

static void measure(void) {
    size_t measuring = used_by(make_measure, call.code == RUDIGNALS_ROOM ? RUDIGNALS_DONE : call.code);
    size_t writing = used_by(make_write, call.code);
    size_t formatting = used_by(make_format, call.code);
    printf("%7lu %7lu %7lu  %s\n", (unsigned long)measuring, (unsigned long)writing, (unsigned long)formatting, call.name);
    if (measuring > writing)
        more = 1;
}

/* Fills the notes with words of 1 to 11 letters, lines of 12 words and, behind each count of lines, an empty line. */
static void prose(const char *line_start, unsigned lines) {
    static const char letters[] = "abcdefghijk";
    unsigned word, line = 0;
    uint32_t random = 2026;
    call.notes_len = 0;
    while (call.notes_len + 600 < RUDIGNALS_MOST_NOTES) {
        call.notes_len += (size_t)sprintf((char *)call.notes + call.notes_len, "%s", line_start);
        for (word = 0; word < 12; word++) {
            random = random * 1664525u + 1013904223u;
            call.notes_len += (size_t)sprintf((char *)call.notes + call.notes_len, "%.*s%s", 1 + (int)(random >> 24) % 11, letters, word < 11 ? " " : ".\n");
        }
        if (++line % lines == 0)
            call.notes[call.notes_len++] = '\n';
    }
}

static void text(const char *name, uint16_t flags, const char *line_start, unsigned lines) {
    prose(line_start, lines);
    call.name = name;
    call.block_len = rudignals_put_number(call.block, 0, RUDIGNALS_TAG_FLAGS, flags);
    call.room = OUTPUT;
    call.code = RUDIGNALS_DONE;
}

static void measure_text(const char *name, uint16_t flags, const char *line_start, unsigned lines) {
    text(name, flags, line_start, lines);
    measure();
}

static void measure_prefix(void) {
    uint8_t prefix[RUDIGNALS_MOST_PREFIX + 1] = {0};
    memset(prefix, '>', RUDIGNALS_MOST_PREFIX);
    text("a prefix and a skip prefix of 255 bytes", 0, (const char *)prefix, 80);
    call.block_len = rudignals_put_prefix(call.block, call.block_len, RUDIGNALS_TAG_PREFIX, prefix, RUDIGNALS_MOST_PREFIX);
    prefix[0] = '#';
    call.block_len = rudignals_put_prefix(call.block, call.block_len, RUDIGNALS_TAG_SKIP, prefix, RUDIGNALS_MOST_PREFIX);
    measure();
}

static void measure_width(const char *name, uint16_t width, unsigned lines) {
    text(name, 0, "", lines);
    call.block_len = rudignals_put_number(call.block, call.block_len, RUDIGNALS_TAG_WIDTH, width);
    measure();
}

static void measure_refusals(void) {
    text("refused 1, options", 2048, "", 80);
    call.code = RUDIGNALS_OPTIONS;
    measure();
    text("refused 2, long", 0, "", 80);
    call.notes_len = RUDIGNALS_MOST_NOTES + 1;
    call.code = RUDIGNALS_LONG;
    measure();
    text("refused 3, text", 0, "", 80);
    call.notes[call.notes_len - 1] = 0xB0;
    call.code = RUDIGNALS_TEXT;
    measure();
    text("refused 4, words", 0, "", 1000);
    call.code = RUDIGNALS_WORDS;
    measure();
    text("refused 5, room", 0, "", 80);
    call.room = 1000;
    call.code = RUDIGNALS_ROOM;
    measure();
}

/* U+50000: its width is looked up in the table itself. */
static void measure_wall(const char *name, void *(*run)(void *)) {
    static const uint8_t unassigned[] = {0xF1, 0x90, 0x80, 0x80};
    text(name, 0, "", 80);
    memcpy(call.notes + call.notes_len - sizeof unassigned, unassigned, sizeof unassigned);
    printf("%7lu                  %s\n", (unsigned long)used_by(run, RUDIGNALS_DONE), call.name);
}

static void measure_alone(const char *name, void *(*run)(void *)) {
    printf("%7lu                  %s\n", (unsigned long)used_by(run, RUDIGNALS_DONE), name);
}

/* With as many records as there can be; and with more pieces than the call's tables have room for. */
static void measure_indexed(void) {
    text("an index", 0, "", 80);
    measure_alone("with an index, Knuth-Plass, paragraphs of 960 words", make_indexed);
    text("an index", RUDIGNALS_QUICK, "", 80);
    measure_alone("with an index, quick", make_indexed);
    text("an index", 0, "", 80);
    memset(call.notes, '\n', 60000);
    measure_alone("with an index of over 60,000 records", make_indexed);
    text("an index", RUDIGNALS_QUICK, "", 80);
    memset(call.notes, '\n', 60000);
    measure_alone("with an index of over 60,000 records, quick", make_indexed);
}

static void measure_unflow(void) {
    text("mail read", 0, "> ", 80);
    measure_alone("mail read", make_unflow);
}

/* Fewer notes, so that their digest is within the limit. */
static void measure_check(const char *name, uint16_t flags, unsigned lines, size_t cut, uint32_t code) {
    text(name, flags, "", lines);
    call.notes_len = RUDIGNALS_MOST_NOTES - 8192;
    call.room = rudignals_number_of(rudignals_write(call.block, call.block_len, call.notes, call.notes_len, output, OUTPUT)) - cut;
    printf("%7lu                  %s\n", (unsigned long)used_by(make_check, code), call.name);
}

static void measure_flow(const char *name, uint16_t flags, const char *line_start, unsigned lines) {
    text(name, flags, line_start, lines);
    printf("%7lu                  %s\n", (unsigned long)used_by(make_flow, RUDIGNALS_DONE), call.name);
}

static void measure_explaining(const char *name, uint16_t flags) {
    text(name, flags, "", 80);
    printf("%7lu                  %s\n", (unsigned long)used_by(make_explain, RUDIGNALS_DONE), call.name);
}

int main(void) {
    text("none", 0, "", 80);
    on_the_painted_stack(make_format); /* in a dynamically linked program the first call looks for memset, on this stack */
    puts("measure   write  format");
    measure_text("Knuth-Plass, paragraphs of 960 words", 0, "", 80);
    measure_text("Knuth-Plass, many paragraphs", 0, "", 1);
    measure_width("Knuth-Plass, width 1000", 1000, 85);
    measure_width("Knuth-Plass, width 6", 6, 85);
    measure_text("quick", RUDIGNALS_QUICK, "", 80);
    measure_text("uniform", RUDIGNALS_UNIFORM, "\t", 80);
    measure_text("split", RUDIGNALS_SPLIT, "", 80);
    measure_text("mail", RUDIGNALS_MAIL, "To: ", 1);
    measure_text("crown", RUDIGNALS_CROWN, "  ", 3);
    measure_text("tagged", RUDIGNALS_TAGGED, "  ", 3);
    measure_text("keep, every line damaged", RUDIGNALS_KEEP, "\xB0", 80);
    measure_text("keep and glue", RUDIGNALS_KEEP | RUDIGNALS_GLUE, "\xC2\xA0", 80);
    measure_prefix();
    measure_refusals();
    measure_wall("a panel", make_panel);
    measure_wall("a text folded", make_fold);
    measure_indexed();
    measure_unflow();
    measure_check("a digest checked, paragraphs of 960 words", RUDIGNALS_QUICK, 80, 0, RUDIGNALS_DONE);
    measure_check("a digest checked, with glue, its last bytes cut off", RUDIGNALS_GLUE, 80, 7, RUDIGNALS_NOT_ACCEPTED);
    measure_flow("mail of format=flowed", 0, "", 80);
    measure_flow("likewise, plain lines", RUDIGNALS_KEEP, "\xB0 ", 80);
    measure_explaining("a line explained, Knuth-Plass", 0);
    measure_explaining("a line explained, quick", RUDIGNALS_QUICK);
    printf("stack: at most %lu bytes; %lu allowed\n", (unsigned long)greatest, (unsigned long)MOST);
    if (more)
        puts("stack: measuring took more than writing");
    return greatest <= MOST && !more ? 0 : 1;
}
