/* A host to copy from: formats standard input to a width, or says why not.
 *
 *     make                     # the library, for x86-64
 *     cc -std=c11 -I include -o host examples/host.c target/package/librudignals.a
 *     ./host 60 <examples/notes.txt
 */
#include "rudignals.h"

#include <stdio.h>
#include <stdlib.h>

/* What a code says of N. */
static const char *in_words(uint32_t code) {
    switch (code) {
    case RUDIGNALS_OPTIONS: return "the width must be 6 to 1000; fault in the block at byte";
    case RUDIGNALS_LONG: return "the notes have over 65536 bytes; N is";
    case RUDIGNALS_TEXT: return "a damaged character at byte";
    case RUDIGNALS_WORDS: return "over 1024 words in the paragraph at byte";
    default: return "no memory for a digest of so many bytes:";
    }
}

/* One byte more than is accepted: so notes that are too long are seen to be. */
static uint8_t notes[RUDIGNALS_MOST_NOTES + 1];

int main(int argc, char **argv) {
    /* the options: fields in the tags' order, here a flag and a number */
    uint8_t block[RUDIGNALS_MOST_BLOCK];
    size_t block_len = rudignals_put_number(block, 0, RUDIGNALS_TAG_FLAGS, RUDIGNALS_QUICK);
    size_t notes_len = fread(notes, 1, sizeof notes, stdin), room;
    uint8_t *output = NULL;
    uint64_t answer;
    int whole;
    if (argc > 1)
        block_len = rudignals_put_number(block, block_len, RUDIGNALS_TAG_WIDTH, strtoul(argv[1], NULL, 10));
    if (ferror(stdin))
        return perror("the notes were not read"), 1;

    /* measure, allocate just that, write; without the memory writing says how much is needed */
    answer = rudignals_measure(block, block_len, notes, notes_len);
    room = rudignals_number_of(answer);
    if (rudignals_code_of(answer) == RUDIGNALS_DONE && room > 0) {
        output = malloc(room);
        answer = rudignals_write(block, block_len, notes, notes_len, output, output == NULL ? 0 : room);
    }

    /* the answer: the digest's length, or a code and its number */
    if (rudignals_code_of(answer) != RUDIGNALS_DONE) {
        fprintf(stderr, "refused: %s %lu\n", in_words(rudignals_code_of(answer)), (unsigned long)rudignals_number_of(answer));
        return 1;
    }
    /* a full disk may be reported only on closing */
    whole = room == 0 || fwrite(output, 1, room, stdout) == room;
    whole = fclose(stdout) == 0 && whole;
    return whole ? 0 : (perror("the digest was not written"), 1);
}
