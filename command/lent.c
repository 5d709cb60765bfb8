/* Calls of the library with as much room for their work as they ask for.
 *
 * The small calls have their tables on the stack and are asked first: most notes need no more. What they refuse for its length or its words
 * goes to the large ones, which tell how much room they need. */
#include "lent.h"

#include <stdlib.h>

struct work own_work;

void free_work(struct work *work) {
    free(work->numbers);
    *work = (struct work){0};
}

static bool is_too_large(uint64_t answer) {
    uint32_t code = rudignals_code_of(answer);
    return code == RUDIGNALS_LONG || code == RUDIGNALS_WORDS || code == RUDIGNALS_LONG_DIGEST;
}

/* Makes the room that a call asks for; false if it asks for none, or there is no memory for it. With so much it does not ask again. */
static bool lend(struct work *work, uint64_t answer) {
    size_t wanted = rudignals_number_of(answer);
    uint32_t *wider;
    if (rudignals_code_of(answer) != RUDIGNALS_WORK_ROOM || wanted <= work->length)
        return false;
    wider = realloc(work->numbers, wanted * sizeof *wider);
    if (wider == NULL)
        return false;
    *work = (struct work){wider, wanted};
    return true;
}

uint64_t lent_measure(struct work *work, struct bytes block, struct bytes notes) {
    uint64_t answer = rudignals_measure(block.at, block.length, notes.at, notes.length);
    if (is_too_large(answer))
        do
            answer = rudignals_measure_large(block.at, block.length, notes.at, notes.length, work->numbers, work->length);
        while (lend(work, answer));
    return answer;
}

uint64_t lent_write(struct work *work, struct bytes block, struct bytes notes, uint8_t *output, size_t room) {
    uint64_t answer = rudignals_write(block.at, block.length, notes.at, notes.length, output, room);
    if (is_too_large(answer))
        do
            answer = rudignals_write_large(block.at, block.length, notes.at, notes.length, output, room, work->numbers, work->length);
        while (lend(work, answer));
    return answer;
}

uint64_t lent_write_indexed(struct work *work, struct bytes block, struct bytes notes, uint8_t *output, size_t room, struct rudignals_record *index, size_t records,
                            uint64_t *filled) {
    uint64_t answer = rudignals_write_indexed(block.at, block.length, notes.at, notes.length, output, room, index, records, filled);
    if (is_too_large(answer))
        do
            answer = rudignals_write_indexed_large(block.at, block.length, notes.at, notes.length, output, room, index, records, filled, work->numbers, work->length);
        while (lend(work, answer));
    return answer;
}

uint64_t lent_explain(struct work *work, struct bytes block, struct bytes notes, uint64_t line, uint64_t reason[6]) {
    uint64_t answer = rudignals_explain(block.at, block.length, notes.at, notes.length, line, reason);
    if (is_too_large(answer))
        do
            answer = rudignals_explain_large(block.at, block.length, notes.at, notes.length, line, reason, work->numbers, work->length);
        while (lend(work, answer));
    return answer;
}

uint64_t lent_flow(struct work *work, struct bytes block, struct bytes notes, uint8_t *output, size_t room, uint64_t *dashes) {
    uint64_t answer = rudignals_flow(block.at, block.length, notes.at, notes.length, output, room, dashes);
    if (is_too_large(answer))
        do
            answer = rudignals_flow_large(block.at, block.length, notes.at, notes.length, output, room, dashes, work->numbers, work->length);
        while (lend(work, answer));
    return answer;
}

uint64_t lent_check(struct work *work, struct bytes block, struct bytes notes, struct bytes digest) {
    uint64_t answer = rudignals_check(block.at, block.length, notes.at, notes.length, digest.at, digest.length);
    if (is_too_large(answer))
        do
            answer = rudignals_check_large(block.at, block.length, notes.at, notes.length, digest.at, digest.length, work->numbers, work->length);
        while (lend(work, answer));
    return answer;
}
