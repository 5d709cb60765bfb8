/* Why every line of the digest ends where it does, by one call for each over all of the notes: reasons BLOCK <NOTES
 * BLOCK is the option block in hex. A line for each: the reason's six numbers. Exit: 0, 1 if the library refuses. */
#include "rudignals.h"

#include <inttypes.h>
#include <stdio.h>
#include <string.h>

int main(int count, char **words) {
    static uint8_t notes[RUDIGNALS_MOST_NOTES + 1], block[RUDIGNALS_MOST_BLOCK];
    size_t length = fread(notes, 1, sizeof notes, stdin), block_len = 0;
    uint64_t reason[6], answer, line;
    unsigned byte;
    for (; count > 1 && sscanf(words[1] + 2 * block_len, "%2x", &byte) == 1; block_len++)
        block[block_len] = (uint8_t)byte;
    for (line = 0;; line++) {
        answer = rudignals_explain(block, block_len, notes, length, line, reason);
        if (rudignals_code_of(answer) != RUDIGNALS_DONE)
            return rudignals_code_of(answer) != RUDIGNALS_NO_LINE || rudignals_number_of(answer) != line;
        printf("%" PRIu64 " %" PRIu64 " %" PRIu64 " %" PRIu64 " %" PRIu64 " %" PRIu64 "\n", reason[0], reason[1], reason[2], reason[3], reason[4], reason[5]);
    }
}
