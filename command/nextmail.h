/* Next-mail: whether a paragraph may be a mail header (docs/RULES.md, Pieces and paragraphs). */
#ifndef NEXTMAIL_H
#define NEXTMAIL_H

#include "buffer.h"
#include "rudignals.h"

/* Is the flag mail set in a block that is accepted? Is keep? */
bool asks_for_mail(struct bytes block);
bool keeps_damage(struct bytes block);
/* The same options without that flag, in the room if they have it. */
struct bytes without_mail(struct bytes block, uint8_t room[RUDIGNALS_MOST_BLOCK]);

/* Could a paragraph that begins so be a mail header? */
bool is_header(struct bytes paragraph);
/* Next-mail after a piece, of which the kind of its first line's reason is known. */
bool next_mail(struct bytes block, bool before, uint64_t kind, struct bytes piece);

#endif
