/* How much of a file the library is given at once. */
#ifndef LIMITS_H
#define LIMITS_H

#include "rudignals.h"

/* Notes are cut into parts of at most so many bytes, where they can be; else into as long a part as there is no place for a cut. Tests make
 * both small, to have many parts. */
#ifndef MOST_PART
#define MOST_PART RUDIGNALS_MOST_NOTES
#endif
#ifndef MOST_LARGE
#define MOST_LARGE RUDIGNALS_MOST_LARGE
#endif

#endif
