/* Writing with an index, and the lookup, through the library, against a model of its own: indexed hand | scale SEED COUNT | long SEED COUNT | tamper FAULT |
 * time
 *
 * The model is written from the words of RULES 12, and those of RULES 4 and 5 on lines and paragraphs, for ASCII notes and the options empty, quick and split: a
 * blank line is a piece; other lines join as long as their indents agree. A piece's lines are counted in what rudignals_write makes of its
 * bytes alone, its place and length in the notes. Lookups are modelled with sums of 128 bits. Every call is made once more with the room that the
 * model says it needs, which lies before a page that cannot be touched, with one number less, and with none. */
#include <stdio.h>
#include <stdlib.h>
#include <string.h>
#include <sys/mman.h>
#include <time.h>
#include <unistd.h>

#include "rudignals.h"

typedef struct rudignals_record record;
enum { MOST = 4096, MANY = 1 << 20, SPARE = 3 };

static const char *fault = "";
static unsigned long calls;
static int tampered(const char *name) { return !strcmp(fault, name); }

static void fail(const char *what) {
    printf("indexed: %s\n", what);
    exit(1);
}

static uint64_t state = 1;
static uint32_t roll(uint32_t below) {
    state = state * 6364136223846793005u + 1442695040888963407u;
    return (uint32_t)((state >> 33) % below);
}

/* ---- the model */

static int is_blank(uint8_t b) { return (b >= 9 && b <= 13) || b == 32; }

typedef struct { size_t text, whole, indent, columns; int blank; } line;

static line line_at(const uint8_t *s, size_t at, size_t n) {
    line l = {0, 0, 0, 0, 1};
    size_t e = at, i;
    while (e < n && s[e] != 10)
        e++;
    l.whole = (e < n ? e + 1 : e) - at;
    l.text = e - at;
    if (e < n && l.text > 0 && s[e - 1] == 13)
        l.text--;
    for (i = 0; i < l.text && is_blank(s[at + i]); i++)
        l.columns = s[at + i] == 9 ? (l.columns / 8 + 1) * 8 : l.columns + 1;
    l.indent = i;
    l.blank = i == l.text;
    return l;
}

/* so many numbers in front of a page that cannot be touched, none of them 0 */
static uint32_t *room_of(size_t numbers) {
    static uint8_t *end;
    size_t page = (size_t)sysconf(_SC_PAGESIZE), most = ((size_t)40 << 20) / page * page;
    if (!end) {
        uint8_t *all = mmap(0, most + page, PROT_READ | PROT_WRITE, MAP_PRIVATE | MAP_ANONYMOUS, -1, 0);
        if (all == MAP_FAILED || mprotect(all + most, page, PROT_NONE))
            fail("no room to lend");
        end = all + most;
    }
    if (numbers > most / 4)
        fail("more room than there is to lend");
    memset(end - numbers * 4, 0xB7, numbers * 4);
    return (uint32_t *)(void *)(end - numbers * 4);
}

static size_t lines_in(const uint8_t *block, size_t block_len, const uint8_t *s, size_t n) {
    static uint8_t out[1 << 23];
    uint64_t a = rudignals_write(block, block_len, s, n, out, sizeof out);
    size_t i, k = 0;
    if (rudignals_code_of(a) == 2 || rudignals_code_of(a) == 4)
        a = rudignals_write_large(block, block_len, s, n, out, sizeof out, room_of(RUDIGNALS_WORK(n)), RUDIGNALS_WORK(n));
    if (rudignals_code_of(a))
        fail("a piece by itself is refused");
    for (i = 0; i < rudignals_number_of(a); i++)
        k += out[i] == 10;
    return k;
}

static size_t model(const uint8_t *block, size_t block_len, int split, const uint8_t *s, size_t n, record *r) {
    size_t at = 0, k = 0, first = 0;
    while (at < n) {
        line l = line_at(s, at, n);
        size_t end = at + l.whole;
        if (!l.blank && !split)
            while (end < n) {
                line m = line_at(s, end, n);
                if (m.blank || m.indent != l.indent || m.columns != l.columns)
                    break;
                end += m.whole;
            }
        r[k].place = at;
        r[k].length = end - at - (tampered("length") && s[end - 1] == 10);
        r[k].first = first + (tampered("first") && k == 1);
        r[k].count = lines_in(block, block_len, s + at, end - at);
        first += r[k].count;
        at = end;
        k++;
    }
    return k;
}

/* ---- the working room that the model says a call needs: a number for sixteen bytes, and for each word of the longest piece seven or fifteen */

static size_t needed_for(const uint8_t *s, size_t n, const record *want, size_t pieces, int quick) {
    size_t i, k, longest = 0;
    for (i = 0; i < pieces; i++) {
        size_t words = 0;
        for (k = want[i].place; k < want[i].place + want[i].length; k++)
            words += !is_blank(s[k]) && (k == want[i].place || is_blank(s[k - 1]));
        longest = words > longest ? words : longest;
    }
    return (n + 15) / 16 + (quick ? 7 : 15) * longest - (tampered("room") && longest > 0);
}

/* the same call in lent room: as it answered, or refused with 12 and everything as it was */
static void lent(const uint8_t *block, size_t block_len, int quick, const uint8_t *s, size_t n, const record *want, size_t pieces, size_t room, size_t records, uint64_t code, uint64_t number) {
    static uint8_t out[1 << 23], plain[1 << 23];
    static record index[MANY + SPARE];
    size_t i, needed = needed_for(s, n, want, pieces, quick), turns[] = {needed, needed ? needed - 1 : 0, 0}, t;
    for (t = 0; t < 3; t++) {
        uint64_t filled = 77, a, enough = turns[t] >= needed, due = enough ? code : 12;
        memset(out, 46, room + SPARE);
        memset(index, 46, (records + SPARE) * sizeof *index);
        a = rudignals_write_indexed_large(block, block_len, s, n, out, room, index, records, &filled, room_of(turns[t]), turns[t]);
        calls++;
        if (rudignals_code_of(a) != due || rudignals_number_of(a) != (enough ? number : needed))
            fail("another answer in lent room");
        if (filled != (due ? 0 : pieces))
            fail("another count in lent room");
        for (i = due == 12 ? 0 : room; i < room + SPARE; i++)
            if (out[i] != 46)
                fail("a byte that is not the call's in lent room");
        for (i = due ? 0 : pieces; i < records + SPARE; i++)
            if (index[i].place != 0x2e2e2e2e2e2e2e2eu || index[i].length != index[i].place || index[i].first != index[i].place || index[i].count != index[i].place)
                fail("a record that is not the call's to fill in lent room");
        if (due == 5 || due == 6)
            for (i = 0; i < room; i++)
                if (out[i])
                    fail("a byte left on a refusal in lent room");
        if (due)
            continue;
        if (memcmp(index, want, pieces * sizeof *index))
            fail("another record in lent room");
        memset(plain, 46, room + SPARE);
        rudignals_write_large(block, block_len, s, n, plain, room, room_of(RUDIGNALS_WORK(n)), RUDIGNALS_WORK(n));
        if (memcmp(plain, out, room))
            fail("another digest than without an index in lent room");
    }
}

/* ---- a call with so much room and so many records, held against what the model has */

static void one(const uint8_t *block, size_t block_len, int quick, const uint8_t *s, size_t n, const record *want, size_t pieces, size_t room, size_t records) {
    static uint8_t out[1 << 20], plain[1 << 20];
    static record index[MOST + SPARE];
    uint64_t filled = 77, a, b = rudignals_measure(block, block_len, s, n);
    size_t i, needed = rudignals_number_of(b), code, number;
    memset(out, 46, room + SPARE);
    memset(index, 46, (records + SPARE) * sizeof *index);
    a = rudignals_write_indexed(block, block_len, s, n, out, room, index, records, &filled);
    calls++;
    if (rudignals_code_of(b))
        fail("measuring refuses");
    code = pieces > records ? 6 : needed > room ? 5 : 0;
    if (tampered("order"))
        code = needed > room ? 5 : pieces > records ? 6 : 0;
    number = code == 6 ? pieces : needed;
    lent(block, block_len, quick, s, n, want, pieces, room, records, code, number);
    if (rudignals_code_of(a) != code || rudignals_number_of(a) != number)
        fail("another answer");
    if (filled != (code ? 0 : pieces + tampered("filled")))
        fail("another count");
    for (i = room; i < room + SPARE; i++)
        if (out[i] != 46)
            fail("a byte beyond the output");
    for (i = code ? 0 : pieces; i < records + SPARE; i++)
        if (index[i].place != 0x2e2e2e2e2e2e2e2eu || index[i].length != index[i].place || index[i].first != index[i].place || index[i].count != index[i].place)
            fail("a record that is not the call's to fill");
    if (code) {
        for (i = 0; i < room; i++)
            if (out[i])
                fail("a byte left on a refusal");
        return;
    }
    if (memcmp(index, want, pieces * sizeof *index))
        fail("another record");
    memset(plain, 46, room + SPARE);
    rudignals_write(block, block_len, s, n, plain, room);
    if (memcmp(plain, out, room))
        fail("another digest than without an index");
    /* every output line leads to its piece, and the line behind the last nowhere */
    if (pieces) {
        uint64_t part[2], last = want[pieces - 1].first + want[pieces - 1].count, x = roll((uint32_t)last + 1);
        for (i = 0; i < pieces && x >= want[i].first + want[i].count; i++)
            ;
        if (rudignals_lookup(index, records, filled, s, n, x, part) != (x < last) || (x < last && (part[0] != want[i].place || part[1] != want[i].length)))
            fail("a line leads elsewhere");
    }
}

static void text(const uint8_t *block, size_t block_len, int quick, int split, const uint8_t *s, size_t n) {
    static record want[MOST];
    size_t pieces = model(block, block_len, split, s, n, want);
    size_t needed = rudignals_number_of(rudignals_measure(block, block_len, s, n));
    one(block, block_len, quick, s, n, want, pieces, needed, pieces);
    one(block, block_len, quick, s, n, want, pieces, needed + 2, pieces + 2);
    one(block, block_len, quick, s, n, want, pieces, needed, 0);
    if (needed)
        one(block, block_len, quick, s, n, want, pieces, needed - 1, pieces);
    if (pieces) {
        one(block, block_len, quick, s, n, want, pieces, needed, pieces - 1);
        one(block, block_len, quick, s, n, want, pieces, needed - 1, pieces - 1);
    }
}

/* ---- any options but mail, where a piece does not hang on those before it: each record's part by itself is one piece, and is written as its
 * lines of the digest; the parts are the notes, and the lines the digest */

static void alone(const uint8_t *block, size_t block_len, const uint8_t *s, size_t n) {
    static uint8_t out[1 << 20], part[1 << 20];
    static record index[MOST];
    uint64_t filled = 0, one, a = rudignals_write_indexed(block, block_len, s, n, out, sizeof out, index, MOST, &filled);
    size_t i, at = 0, from = 0, line = 0;
    calls++;
    if (rudignals_code_of(a))
        fail("an answer with room for all");
    for (i = 0; i < filled; i++) {
        size_t length = (size_t)index[i].length, k, to = from;
        if (index[i].place != at || index[i].first != line || length == 0 || index[i].count == 0)
            fail("a gap");
        for (k = 0; k < index[i].count; k++)
            while (out[to++] != 10)
                ;
        if (rudignals_write(block, block_len, s + at, length, part, sizeof part) != to - from || memcmp(part, out + from, to - from))
            fail("a part by itself has other lines");
        if (rudignals_write_indexed(block, block_len, s + at, length, part, sizeof part, index, 0, &one) != ((uint64_t)6 << 32) + 1)
            fail("a part by itself is not one piece");
        at += length, from = to, line += index[i].count;
    }
    if (at != n || from != rudignals_number_of(a))
        fail("an end");
}

/* ---- lists of any content */

static void any_list(void) {
    static const uint64_t some[] = {0, 1, 2, 3, 7, 8, 0xFFFFFFFFu, 0x100000000u, 0x7FFFFFFFFFFFFFFFu, 0xFFFFFFFFFFFFFFFEu, 0xFFFFFFFFFFFFFFFFu};
    uint8_t notes[8];
    record r[4];
    uint64_t part[2] = {46, 47}, line = some[roll(11)], filled = roll(6);
    size_t records = roll(5), n = roll(9), i, found = 0;
    for (i = 0; i < 4; i++) {
        r[i].place = some[roll(11)];
        r[i].length = some[roll(11)];
        r[i].first = some[roll(11)];
        r[i].count = some[roll(11)];
    }
    for (i = 0; filled <= records && i < filled; i++)
        if (line >= r[i].first && (unsigned __int128)line < (unsigned __int128)r[i].first + r[i].count) {
            found = (unsigned __int128)r[i].place + r[i].length <= n;
            if (found || !tampered("later"))
                break;
        }
    calls++;
    if (rudignals_lookup(r, records, filled, notes, n, line, part) != found)
        fail("another lookup");
    if (found ? part[0] != r[i].place || part[1] != r[i].length : part[0] != 46 || part[1] != 47)
        fail("another part");
}

static void hand(void) {
    static const uint8_t empty[1], quick[] = {1, 0, 2, 0, 32}, faulty[] = {9};
    static uint8_t long_notes[65537], many[4096], out[65536];
    record r[3] = {{9, 9, 9, 9}, {9, 9, 9, 9}, {9, 9, 9, 9}};
    const record three[] = {{0, 3, 0, 1}, {3, 1, 1, 1}, {4, 1, 2, 1}};
    uint64_t filled = 9, part[2];
    size_t i;
    text(empty, 0, 0, 0, (const uint8_t *)"", 0);
    text(empty, 0, 0, 0, (const uint8_t *)"a\r\n\nb", 5);
    text(quick, 5, 1, 0, (const uint8_t *)"  a b\n\tc\n\n\n d", 13);
    if (rudignals_write_indexed(empty, 0, (const uint8_t *)"a\r\n\nb", 5, out, 5, r, 3, &filled) != 5 || filled != 3 || memcmp(r, three, sizeof three))
        fail("the three records");
    /* 1, 2, 3 and 4 come before 6 and 5 */
    if (rudignals_write_indexed(faulty, 1, long_notes, 65537, out, 0, r, 0, &filled) != (uint64_t)1 << 32 || filled)
        fail("code 1");
    if (rudignals_write_indexed(empty, 0, long_notes, 65537, out, 0, r, 0, &filled) != (uint64_t)2 << 32 || filled)
        fail("code 2");
    if (rudignals_write_indexed(empty, 0, (const uint8_t *)"a\n\xB0", 3, out, 0, r, 0, &filled) != ((uint64_t)3 << 32) + 2 || filled)
        fail("code 3");
    for (i = 0; i < 2050; i++)
        many[i] = i % 2 ? ' ' : 'a';
    memset(out, 46, 10);
    if (rudignals_write_indexed(empty, 0, many, 2050, out, 10, r, 0, &filled) != (uint64_t)4 << 32 || filled || out[0] || out[9] || out[10] == 46)
        fail("code 4");
    if (memcmp(r, three, sizeof three))
        fail("a record changed on a refusal");
    /* the last line number: nothing wraps; a record of count 0 holds nothing; an empty part is found; no later record is tried */
    r[0] = (record){0, 1, 0xFFFFFFFFFFFFFFFFu, 1};
    if (rudignals_lookup(r, 1, 1, out, 1, 0xFFFFFFFFFFFFFFFFu, part) != 1 || part[0] || part[1] != 1 || rudignals_lookup(r, 1, 1, out, 1, 0, part))
        fail("the last line");
    r[0] = (record){0, 1, 7, 0};
    r[1] = (record){5, 0, 7, 1};
    if (rudignals_lookup(r, 2, 2, out, 5, 7, part) != 1 || part[0] != 5 || part[1])
        fail("an empty part");
    r[0] = (record){5, 1, 0, 1};
    r[1] = (record){0, 1, 0, 1};
    if (rudignals_lookup(r, 2, 2, out, 5, 0, part) || rudignals_lookup(r, 2, 3, out, 9, 0, part))
        fail("a later record, or a count past the list");
    /* as many pieces as there can be */
    {
        static record all[65536];
        memset(long_notes, 10, 65536);
        if (rudignals_write_indexed(empty, 0, long_notes, 65536, out, 65536, all, 65536, &filled) != 65536 || filled != 65536)
            fail("65,536 blank lines");
        for (i = 0; i < 65536; i++)
            if (all[i].place != i || all[i].length != 1 || all[i].first != i || all[i].count != 1)
                fail("a record of 65,536");
        if (rudignals_write_indexed(empty, 0, long_notes, 65536, out, 65536, all, 65535, &filled) != ((uint64_t)6 << 32) + 65536 || filled)
            fail("65,535 records");
    }
}

/* notes of more bytes than the small calls take and paragraphs of more words, each limit at its edge and one beside it */
static void far_notes(unsigned long count) {
    static uint8_t s[(1 << 20) + 1], out[1 << 20];
    static record want[MANY];
    static const uint8_t none[1], faulty[] = {9};
    uint64_t filled = 9;
    size_t i, n = (size_t)1 << 20;
    /* as many pieces as there can be, and one byte more */
    memset(s, 10, n + 1);
    if (rudignals_write_indexed_large(none, 0, s, n, out, n, want, n, &filled, room_of(n / 16), n / 16) != n || filled != n)
        fail("1,048,576 blank lines");
    for (i = 0; i < n; i++)
        if (want[i].place != i || want[i].length != 1 || want[i].first != i || want[i].count != 1)
            fail("a record of 1,048,576");
    if (rudignals_write_indexed_large(none, 0, s, n, out, n, want, n - 1, &filled, room_of(n / 16), n / 16) != ((uint64_t)6 << 32) + n || filled)
        fail("1,048,575 records");
    if (rudignals_write_indexed_large(none, 0, s, n, out, n, want, n, &filled, room_of(n / 16 - 1), n / 16 - 1) != ((uint64_t)12 << 32) + n / 16 || filled)
        fail("one number less");
    if (rudignals_write_indexed_large(none, 0, s, n + 1, out, n, want, n, &filled, room_of(0), 0) != (uint64_t)2 << 32 || filled)
        fail("1,048,577 bytes");
    /* 1, 2 and 3 come before 12, and 12 before 6 and 5 */
    if (rudignals_write_indexed_large(faulty, 1, s, n + 1, out, 0, want, 0, &filled, room_of(0), 0) != (uint64_t)1 << 32 || filled)
        fail("code 1 in lent room");
    if (rudignals_write_indexed_large(none, 0, (const uint8_t *)"a\n\xB0", 3, out, 0, want, 0, &filled, room_of(0), 0) != ((uint64_t)3 << 32) + 2 || filled)
        fail("code 3 in lent room");
    if (rudignals_write_indexed_large(none, 0, (const uint8_t *)"a b", 3, out, 0, want, 0, &filled, room_of(0), 0) != ((uint64_t)12 << 32) + 31 || filled)
        fail("code 12 before 6 and 5");
    while (count--) {
        uint8_t block[16];
        size_t most = roll(4) ? 5000 + roll(200000) : ((size_t)1 << 20) - roll(2), b, pieces, needed;
        unsigned quick = roll(2), blanks = roll(3) ? 1000 + roll(100000) : 1 + roll(40);
        b = rudignals_put_number(block, 0, RUDIGNALS_TAG_FLAGS, quick ? RUDIGNALS_QUICK : 0);
        for (i = 0; i < most; i++)
            s[i] = i % (2 + roll(7)) ? 'a' : roll(12) ? ' ' : 10;
        for (i = blanks; i + 1 < most; i += 1 + roll(2 * blanks))
            s[i] = s[i + 1] = 10;
        pieces = model(block, b, 0, s, most, want);
        needed = rudignals_number_of(rudignals_measure_large(block, b, s, most, room_of(RUDIGNALS_WORK(most)), RUDIGNALS_WORK(most)));
        lent(block, b, (int)quick, s, most, want, pieces, needed, pieces, 0, needed);
        lent(block, b, (int)quick, s, most, want, pieces, needed - 1, pieces, 5, needed);
        lent(block, b, (int)quick, s, most, want, pieces, needed, pieces - 1, 6, pieces);
    }
}

static void scale(unsigned long count) {
    static const char *words[] = {"a", "bb", "ccc.", "dddd", "eeeee?", "ffffffff", "g!", "hhhhhhhhhhhhhhhh"};
    static const char *between[] = {" ", " ", " ", "  ", "\n", "\n", "\r\n", "\n\n", "\n ", "\n  ", "\n\t", " \n", "\n \n"};
    while (count--) {
        uint8_t s[600], block[32];
        size_t n = 0, b = 0, i, k = roll(40);
        unsigned flags = roll(2) ? RUDIGNALS_QUICK : 0, split = roll(4) == 0;
        b = rudignals_put_number(block, b, RUDIGNALS_TAG_FLAGS, flags + (split ? RUDIGNALS_SPLIT : 0));
        if (roll(2))
            b = rudignals_put_number(block, b, RUDIGNALS_TAG_WIDTH, 6 + roll(40));
        for (i = 0; i < k; i++) {
            const char *w = words[roll(8)], *g = between[roll(13)];
            memcpy(s + n, w, strlen(w)), n += strlen(w);
            if (i + 1 < k || roll(2))
                memcpy(s + n, g, strlen(g)), n += strlen(g);
        }
        text(block, b, flags != 0, (int)split, s, n);
        any_list();
        b = rudignals_put_number(block, 0, RUDIGNALS_TAG_FLAGS, roll(2048) & ~(unsigned)RUDIGNALS_MAIL);
        if (roll(2))
            b = rudignals_put_number(block, b, RUDIGNALS_TAG_WIDTH, 6 + roll(40));
        if (roll(2))
            b = rudignals_put_prefix(block, b, RUDIGNALS_TAG_PREFIX, (const uint8_t *)"a", roll(2));
        if (roll(4) == 0)
            b = rudignals_put_prefix(block, b, RUDIGNALS_TAG_SKIP, (const uint8_t *)"bb", 2);
        alone(block, b, s, n);
    }
}

static double now(void) {
    struct timespec t;
    clock_gettime(CLOCK_PROCESS_CPUTIME_ID, &t);
    return (double)t.tv_sec + (double)t.tv_nsec / 1e9;
}

/* least of many calls, with and without an index, on prose of 1, 4 and 64 KiB, with few and with the most records */
static void timing(void) {
    static uint8_t s[65536], out[1 << 18];
    static record index[65536];
    static const char *prose[] = {"the ", "night ", "shift ", "found ", "valve ", "seven ", "leaking ", "again, ", "and ", "closed ", "it. ", "Pressure ", "was ", "steady "};
    size_t sizes[] = {1024, 4096, 65536}, i, k, q;
    for (i = 0; i < 3; i++)
        for (q = 0; q < 2; q++) {
            uint8_t block[8];
            size_t n = 0, col = 0, lines = 0, b = rudignals_put_number(block, 0, RUDIGNALS_TAG_FLAGS, q ? RUDIGNALS_QUICK : 0);
            double best[3] = {1, 1, 1};
            uint64_t filled = 0;
            state = 5;
            while (n + 12 < sizes[i]) {
                const char *w = prose[roll(14)];
                memcpy(s + n, w, strlen(w)), n += strlen(w), col += strlen(w);
                if (col > 60)
                    s[n - 1] = 10, col = 0, lines++, (void)(lines % 6 ? 0 : (s[n++] = 10));
            }
            for (k = 0; k < 400; k++) {
                double t = now();
                rudignals_write(block, b, s, n, out, sizeof out);
                t = now() - t;
                best[0] = t < best[0] ? t : best[0];
                t = now();
                rudignals_write_indexed(block, b, s, n, out, sizeof out, index, 1024, &filled);
                t = now() - t;
                best[1] = t < best[1] ? t : best[1];
                t = now();
                rudignals_write_indexed(block, b, s, n, out, sizeof out, index, 65536, &filled);
                t = now() - t;
                best[2] = t < best[2] ? t : best[2];
            }
            printf("%6zu bytes, %s: %.2f ns a byte; with an index of %llu records filled of 1,024 %.2f, ratio %.3f; of 65,536 %.2f, ratio %.3f\n", n, q ? "quick" : "best ", best[0] * 1e9 / (double)n,
                   (unsigned long long)filled, best[1] * 1e9 / (double)n, best[1] / best[0], best[2] * 1e9 / (double)n, best[2] / best[0]);
        }
}

int main(int argc, char **argv) {
    const char *what = argc > 1 ? argv[1] : "";
    if (!strcmp(what, "tamper") && argc > 2) {
        fault = argv[2];
        state = 2026;
        scale(2000);
    } else if (!strcmp(what, "hand"))
        hand();
    else if (!strcmp(what, "scale") && argc > 3) {
        state = strtoull(argv[2], 0, 10);
        scale(strtoul(argv[3], 0, 10));
    } else if (!strcmp(what, "long") && argc > 3) {
        state = strtoull(argv[2], 0, 10);
        far_notes(strtoul(argv[3], 0, 10));
    } else if (!strcmp(what, "time")) {
        timing();
        return 0;
    } else
        return 2;
    printf("%s: %lu calls, no difference\n", what, calls);
    return 0;
}
