/* Words for a person. */
#include "say.h"

#include "progress.h"
#include "visible.h"

#include <stdarg.h>
#include <stdio.h>
#include <stdlib.h>
#include <string.h>

const char *called = "rudignals";
const char *subject = "rudignals";

bool silent = false;
static char *said = NULL;

/* Control characters, in the name of a file say, could spoil a terminal or look like another message. */
static char *made_visible(const char *text, size_t length) {
    struct buffer plain = {0};
    if (add_visible_line(&plain, text, length) && buffer_add(&plain, "", 1))
        return (char *)plain.bytes;
    buffer_free(&plain);
    return NULL;
}

PRINTS(1, 0) static char *fill(const char *sentence, va_list values) {
    struct buffer text = {0};
    char *plain = buffer_fill(&text, sentence, values) ? made_visible((const char *)text.bytes, text.length) : NULL;
    buffer_free(&text);
    return plain;
}

char *words(const char *sentence, ...) {
    va_list values;
    char *text;
    va_start(values, sentence);
    text = fill(sentence, values);
    va_end(values);
    return text;
}

/* A name may be of any length. The line goes out in one piece; without memory, the sentence without its values. */
void say(const char *sentence, ...) {
    va_list values;
    char *before = said;
    va_start(values, sentence);
    said = fill(sentence, values);
    va_end(values);
    if (!silent) {
        clear_progress();
        fprintf(stderr, "%s: %s\n", called, said == NULL ? sentence : said);
    }
    free(before);
}

const char *last_said(void) { return said == NULL ? "no memory for the words" : said; }

void say_failure(const char *name, int reason) { say("%s: %s", name, strerror(reason)); }

int wrong_call(void) {
    fprintf(stderr, "Try '%s --help'.\n", subject);
    return WRONG_CALL;
}
