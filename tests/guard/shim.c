/* The library's calls with every slice between pages that can be neither read nor written, whatever program makes them. A slice is copied to
 * an area of its own, against the upper guard or the lower, in turn; behind the call what may be written is copied back, what may not must be
 * as it was, and so must 64 bytes on the slice's other side. tests/guard/build puts this before the library, whose calls it knows by other
 * names. For programs of one thread. */
#define _GNU_SOURCE
#include <rudignals.h>
#include <stdio.h>
#include <stdlib.h>
#include <string.h>
#include <sys/mman.h>

enum { SLOTS = 8, GUARD = 65536, MARGIN = 64, FILL = 0xA5 };

static struct {
    uint8_t *start;
    size_t size;
    /* of the call under way: the slice, where it came from, whether it goes back, and its margin */
    uint8_t *at, *margin;
    const void *from;
    void *back;
    size_t length;
} slot[SLOTS];
static unsigned used, turn;

static void fail(const char *what) {
    fprintf(stderr, "guard: %s\n", what);
    abort();
}

static void *lend(void *back, const void *from, size_t length) {
    size_t need = (length + MARGIN + GUARD - 1) / GUARD * GUARD, i;
    unsigned n = used++;
    slot[n].from = from, slot[n].back = back, slot[n].length = from ? length : 0, slot[n].at = NULL;
    if (!from)
        return NULL;
    if (slot[n].size < need) {
        uint8_t *all;
        if (slot[n].start)
            munmap(slot[n].start - GUARD, slot[n].size + 2 * GUARD);
        all = mmap(NULL, need + 2 * GUARD, PROT_NONE, MAP_PRIVATE | MAP_ANONYMOUS | MAP_NORESERVE, -1, 0);
        if (all == MAP_FAILED || mprotect(all + GUARD, need, PROT_READ | PROT_WRITE))
            fail("no memory");
        slot[n].start = all + GUARD, slot[n].size = need;
    }
    if (turn >> n & 1) {
        slot[n].at = slot[n].start + slot[n].size - length;
        slot[n].margin = slot[n].at - MARGIN;
    } else {
        slot[n].at = slot[n].start;
        slot[n].margin = slot[n].at + length;
    }
    memcpy(slot[n].at, from, length);
    for (i = 0; i < MARGIN; i++)
        slot[n].margin[i] = FILL;
    return slot[n].at;
}

static uint64_t given_back(uint64_t answer) {
    unsigned n;
    size_t i;
    for (n = 0; n < used; n++) {
        if (!slot[n].at)
            continue;
        for (i = 0; i < MARGIN; i++)
            if (slot[n].margin[i] != FILL)
                fail("a byte beside a slice was written");
        if (slot[n].back)
            memcpy(slot[n].back, slot[n].at, slot[n].length);
        else if (memcmp(slot[n].from, slot[n].at, slot[n].length))
            fail("a byte was written that is only to be read");
    }
    used = 0, turn++;
    return answer;
}

#define IN(p, n) lend(NULL, p, (n) * sizeof *(p))
#define OUT(p, n) lend(p, p, (n) * sizeof *(p))
#define CALL(name, args, body) extern uint64_t unguarded_##name args __attribute__((weak)); uint64_t rudignals_##name args { return given_back(unguarded_##name body); }
#define ASKED const uint8_t *options, size_t options_len, const uint8_t *notes, size_t notes_len
#define LENT IN(options, options_len), options_len, IN(notes, notes_len), notes_len
#define OUTPUT OUT(output, output_len), output_len
#define ROOM uint32_t *work, size_t work_len
#define WORK OUT(work, work_len), work_len

CALL(measure, (ASKED), (LENT))
CALL(write, (ASKED, uint8_t *output, size_t output_len), (LENT, OUTPUT))
CALL(format, (ASKED, uint8_t *output, size_t output_len), (LENT, OUTPUT))
CALL(write_indexed, (ASKED, uint8_t *output, size_t output_len, struct rudignals_record *index, size_t records, uint64_t *filled),
     (LENT, OUTPUT, OUT(index, records), records, OUT(filled, 1)))
CALL(lookup, (const struct rudignals_record *index, size_t records, uint64_t filled, const uint8_t *notes, size_t notes_len, uint64_t line, uint64_t part[2]),
     (IN(index, records), records, filled, IN(notes, notes_len), notes_len, line, OUT(part, 2)))
CALL(mend, (const uint8_t *notes, size_t notes_len, uint8_t *copy, size_t copy_len, uint32_t *places, size_t places_len, uint8_t *bytes, size_t bytes_len),
     (IN(notes, notes_len), notes_len, OUT(copy, copy_len), copy_len, OUT(places, places_len), places_len, OUT(bytes, bytes_len), bytes_len))
CALL(restore, (const uint8_t *copy, size_t copy_len, const uint32_t *places, size_t places_len, const uint8_t *bytes, size_t bytes_len, uint8_t *notes, size_t notes_len),
     (IN(copy, copy_len), copy_len, IN(places, places_len), places_len, IN(bytes, bytes_len), bytes_len, OUT(notes, notes_len), notes_len))
CALL(panel, (const uint8_t *digest, size_t digest_len, uint64_t tab, uint32_t cells[1920]), (IN(digest, digest_len), digest_len, tab, OUT(cells, 1920)))
CALL(fold, (const uint8_t *text, size_t text_len, uint64_t tab, uint64_t columns, uint8_t *output, size_t output_len),
     (IN(text, text_len), text_len, tab, columns, OUTPUT))
CALL(unflow, (const uint8_t *text, size_t text_len, uint8_t *output, size_t output_len), (IN(text, text_len), text_len, OUTPUT))
CALL(explain, (ASKED, uint64_t line, uint64_t reason[6]), (LENT, line, OUT(reason, 6)))
CALL(flow, (ASKED, uint8_t *output, size_t output_len, uint64_t *dashes), (LENT, OUTPUT, OUT(dashes, 1)))
CALL(check, (ASKED, const uint8_t *digest, size_t digest_len), (LENT, IN(digest, digest_len), digest_len))

CALL(measure_large, (ASKED, ROOM), (LENT, WORK))
CALL(write_large, (ASKED, uint8_t *output, size_t output_len, ROOM), (LENT, OUTPUT, WORK))
CALL(write_indexed_large, (ASKED, uint8_t *output, size_t output_len, struct rudignals_record *index, size_t records, uint64_t *filled, ROOM),
     (LENT, OUTPUT, OUT(index, records), records, OUT(filled, 1), WORK))
CALL(explain_large, (ASKED, uint64_t line, uint64_t reason[6], ROOM), (LENT, line, OUT(reason, 6), WORK))
CALL(flow_large, (ASKED, uint8_t *output, size_t output_len, uint64_t *dashes, ROOM), (LENT, OUTPUT, OUT(dashes, 1), WORK))
CALL(check_large, (ASKED, const uint8_t *digest, size_t digest_len, ROOM), (LENT, IN(digest, digest_len), digest_len, WORK))
