/* Formats standard input at 60 columns.
 *
 *     cc -std=c11 -o notes notes.c $(pkg-config --cflags --libs rudignals)
 */
#include <rudignals.h>
#include <stdio.h>
#include <stdlib.h>

int main(void) {
    /* one byte more than the library takes, so that longer notes are refused and not cut */
    static uint8_t notes[RUDIGNALS_MOST_NOTES + 1];
    uint8_t options[RUDIGNALS_MOST_BLOCK], *digest;
    size_t notes_len = fread(notes, 1, sizeof notes, stdin);
    size_t options_len = rudignals_put_number(options, 0, RUDIGNALS_TAG_WIDTH, 60);
    uint64_t answer = rudignals_measure(options, options_len, notes, notes_len);
    size_t length = rudignals_number_of(answer);

    if (rudignals_code_of(answer) != RUDIGNALS_DONE) {
        fprintf(stderr, "refused: %s (N %zu)\n", rudignals_code_words(rudignals_code_of(answer)), length);
        return 1;
    }
    digest = malloc(length + 1);
    if (digest == NULL)
        return perror("notes"), 1;
    rudignals_write(options, options_len, notes, notes_len, digest, length);
    fwrite(digest, 1, length, stdout);
    free(digest);
    return fclose(stdout) == 0 ? 0 : 1;
}
