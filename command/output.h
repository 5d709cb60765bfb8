/* What goes out: to standard output, or with -o into a file, whole and in its place. */
#ifndef OUTPUT_H
#define OUTPUT_H

#include "buffer.h"

/* Keeps the numbers of standard streams that were closed from the start from being given to files that are opened later. Called first. */
void hold_streams(void);

/* Where to: into a file of that name; standard output if it is null or `-'. */
void set_output(const char *name);
/* Control characters are to be shown there, as what is written may have some. */
bool output_is_terminal(void);

/* These write, and tell if they cannot: once, and then they do nothing more. Text goes as it is, and to a terminal with control characters
 * shown; a drawing has its own. Each call has whole lines, or whole characters at least. */
bool write_out(const void *bytes, size_t length);
bool print_out(const char *format, ...) PRINTS(1, 2);
bool draw_out(const void *bytes, size_t length);
/* Has all that was written until now arrive; a file gets it at the end only. */
bool flush_out(void);
/* Was it told that something was not written? */
bool output_failed(void);
/* Was there anything to write? */
bool output_begun(void);

/* Has all of it arrive now, a file too; nothing more may be written. */
bool end_output(void);
/* The same, if that was not done; a file that is not wanted is left as it was. Answers false if something has not arrived. */
bool close_output(bool wanted);

#endif
