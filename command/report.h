/* The audit's report: one page, a calendar or a list, and of each pair that is not carried both texts. */
#ifndef REPORT_H
#define REPORT_H

#include "audit.h"

#include <stdio.h>

/* What the report shows of all pairs is written when all are known: so the pairs are put into a stream of their own first. */
struct report {
    FILE *pairs;
    char *pairs_bytes;
    size_t pairs_length;
    struct day *days; /* a row for each pair */
    size_t length, room;
    bool well; /* memory was there for all of it */
};

bool begin_report(struct report *report);
/* A pair, with its texts if it is not carried. */
void report_pair(struct report *report, const struct audit *audit, const struct audited *row);
/* The page, with the names of what was audited and the time. Answers false, with errno, if it could not be made. */
bool end_report(struct report *report, const struct audit *audit, const char *notes, const char *digests, const char *time, struct buffer *page);

/* ---- report_assets.c, made by tools/page */

extern const char *const REPORT_STYLE[], *const REPORT_SCRIPT[];
extern const char REPORT_STYLE_HASH[], REPORT_SCRIPT_HASH[];

#endif
