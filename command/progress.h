/* How far a long work has come, on a terminal. */
#ifndef PROGRESS_H
#define PROGRESS_H

#include <stdbool.h>
#include <stddef.h>

/* Nothing is shown before two seconds have passed since the first call, nor where standard error is no terminal. So many bytes are done, of so
 * many; of 0 if nobody knows. */
void show_progress(size_t done, size_t all);
/* Takes what is shown off the terminal, for other words to stand there. */
void clear_progress(void);
/* From now on nothing is shown: something else is written to the terminal. */
void end_progress(void);

#endif
