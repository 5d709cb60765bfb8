/* What audit.c, its output and its report share: pairs, each with what was found of it. */
#ifndef AUDIT_H
#define AUDIT_H

#include "buffer.h"
#include "pairs.h"
#include "verdict.h"

/* A pair that was judged. The texts are kept for the report alone. */
struct audited {
    const struct pair *pair;
    struct finding finding;
    struct buffer notes, digest;
    size_t read; /* so many bytes of the two */
    bool ended;  /* it was judged */
};

struct audit {
    struct terms terms;
    struct pairs pairs;
    struct audited *rows;
    bool keep_texts;  /* of pairs that are not carried */
    unsigned jobs;
    size_t counts[VERDICTS];
};

/* ---- judging.c: pairs read and judged, several at once */

/* Judges every pair, and hands them over one by one, in their order, each as soon as those before it are there. Answers false, with errno, if
 * it could not be begun. */
bool judge_pairs(struct audit *audit, void (*take)(struct audit *audit, struct audited *row, void *with), void *with);

/* ---- findings.c: what was found, in words and as records */

bool add_record(struct buffer *out, const struct audited *row);
bool add_line(struct buffer *out, const struct audited *row);
bool add_summary(struct buffer *out, const struct audit *audit);

#endif
