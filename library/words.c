/* The two calls of rudignals.h that answer text. The kit exports functions over numbers and slices, and no text; so these two are C. They are put
 * beside the proved code into librudignals.a and librudignals.so.1, and touch nothing of it. */
#include "rudignals.h"

const char *rudignals_version(void) { return RUDIGNALS_VERSION; }

const char *rudignals_code_words(uint32_t code) {
    switch (code) {
    case RUDIGNALS_DONE: return "done";
    case RUDIGNALS_OPTIONS: return "an option is out of its range";
    case RUDIGNALS_LONG: return "the text is too long";
    case RUDIGNALS_TEXT: return "a character of the notes is damaged";
    case RUDIGNALS_WORDS: return "a paragraph has too many words";
    case RUDIGNALS_ROOM: return "the output is too small";
    case RUDIGNALS_INDEX_FULL: return "the index has too few records";
    case RUDIGNALS_LIST_FULL: return "the list of changes is too short";
    case RUDIGNALS_NO_LINE: return "the digest has no such line";
    case RUDIGNALS_LONG_DIGEST: return "the digest is too long";
    case RUDIGNALS_NOT_ACCEPTED: return "the digest does not carry the notes";
    case RUDIGNALS_LIST: return "the list of changes does not fit the copy";
    case RUDIGNALS_WORK_ROOM: return "the working room is too small";
    default: return "unknown code";
    }
}
