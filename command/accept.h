/* A digest of any length, held against its notes. */
#ifndef ACCEPT_H
#define ACCEPT_H

#include "buffer.h"

/* As diff has it. */
enum acceptance { ACCEPTED = 0, NOT_ACCEPTED = 1, NOT_JUDGED = 2 };

struct judgement {
    enum acceptance acceptance;
    uint64_t line; /* NOT_ACCEPTED: the first line of the digest that cannot be right, counted from 0 */
    uint32_t code; /* NOT_JUDGED: why the library refuses the notes or the digest, and the place in the notes */
    size_t place;
};

struct judgement judge(struct bytes block, struct bytes notes, struct bytes digest);

#endif
