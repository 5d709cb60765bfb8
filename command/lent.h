/* Calls of the library with as much room for their work as they ask for. */
#ifndef LENT_H
#define LENT_H

#include "buffer.h"
#include "rudignals.h"

/* The room, in numbers. All zero is none; it grows as calls ask for it. */
struct work {
    uint32_t *numbers;
    size_t length;
};
void free_work(struct work *work);
/* That of a command which works in one thread; it stays to the end. */
extern struct work own_work;

/* Each answers as the library does for notes of up to RUDIGNALS_MOST_LARGE bytes, however many words a paragraph has. With
 * RUDIGNALS_WORK_ROOM there is no memory for so much. */
uint64_t lent_measure(struct work *work, struct bytes block, struct bytes notes);
uint64_t lent_write(struct work *work, struct bytes block, struct bytes notes, uint8_t *output, size_t room);
uint64_t lent_write_indexed(struct work *work, struct bytes block, struct bytes notes, uint8_t *output, size_t room, struct rudignals_record *index, size_t records,
                            uint64_t *filled);
uint64_t lent_explain(struct work *work, struct bytes block, struct bytes notes, uint64_t line, uint64_t reason[6]);
uint64_t lent_flow(struct work *work, struct bytes block, struct bytes notes, uint8_t *output, size_t room, uint64_t *dashes);
uint64_t lent_check(struct work *work, struct bytes block, struct bytes notes, struct bytes digest);

#endif
