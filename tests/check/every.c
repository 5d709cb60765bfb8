/* Every digest of up to DEPTH symbols, checked with the same notes: every DEPTH OPTIONS NOTES SYMBOL.. (all but DEPTH in hexadecimal).
 * For each, in the order of a walk from the empty digest on, one byte: the line that is told, 254 if another code is, 255 if it is accepted. */
#include <stdio.h>
#include <stdlib.h>
#include <string.h>

#include "rudignals.h"

enum { MOST = 4096, SYMBOLS = 16 };
static uint8_t block[MOST], notes[MOST], digest[MOST], symbol[SYMBOLS][8];
static size_t block_len, notes_len, symbol_len[SYMBOLS];
static int symbols;

static size_t bytes_of(const char *hex, uint8_t *to, size_t room) {
    size_t n = 0;
    for (; hex[0] && hex[1] && n < room; hex += 2) {
        char two[3] = {hex[0], hex[1], 0};
        to[n++] = (uint8_t)strtoul(two, NULL, 16);
    }
    return n;
}

static void walk(size_t len, int depth) {
    uint64_t a = rudignals_check(block, block_len, notes, notes_len, digest, len);
    uint32_t code = rudignals_code_of(a), n = rudignals_number_of(a);
    putchar(code == RUDIGNALS_DONE && n == 0 ? 255 : code == RUDIGNALS_NOT_ACCEPTED && n < 254 ? (int)n : 254);
    for (int k = 0; depth > 0 && k < symbols; k++) {
        memcpy(digest + len, symbol[k], symbol_len[k]);
        walk(len + symbol_len[k], depth - 1);
    }
}

int main(int argc, char **argv) {
    if (argc < 5 || argc - 4 > SYMBOLS)
        return 2;
    block_len = bytes_of(argv[2], block, sizeof block);
    notes_len = bytes_of(argv[3], notes, sizeof notes);
    for (symbols = 0; symbols < argc - 4; symbols++)
        symbol_len[symbols] = bytes_of(argv[4 + symbols], symbol[symbols], sizeof symbol[0]);
    walk(0, atoi(argv[1]));
    return fflush(stdout) == 0 ? 0 : 1;
}
