/* Words for a person. */
#ifndef SAY_H
#define SAY_H

#include "buffer.h"

/* The exit status. Checking has three of its own, which are the same numbers. */
enum { WELL = 0, FAILED = 1, WRONG_CALL = 2 };

/* The name by which the command was called, `rudignals' or `fmt'; and what --help is asked of, `rudignals format' or `fmt'. */
extern const char *called;
extern const char *subject;

/* One line on standard error, after the name; nothing while the command is silent, since it draws on that terminal. What could act on a
 * terminal or look like another line is written out, wherever it goes. */
void say(const char *sentence, ...) PRINTS(1, 2);
extern bool silent;
/* What was said last. */
const char *last_said(void);
/* A sentence with its values, likewise. It is the caller's to free; null if there is no memory. */
char *words(const char *sentence, ...) PRINTS(1, 2);
/* A stream that failed, and the system's reason. */
void say_failure(const char *name, int reason);
/* After the words for a wrong call: where to read on. Answers the exit status. */
int wrong_call(void);

#endif
