/* Mending and restoring through the library, beside a model written from the words of RULES 14: by hand, at scale, and on texts given.
 *
 *   salvage hand                 cases by hand
 *   salvage scale SEED COUNT     generated texts, every room and list that matters for each
 *   salvage tamper WHICH         one run with a fault put in on purpose, which must be seen
 *   salvage mend                 standard input mended to standard output
 *
 * Each slice stands between two pages that cannot be read or written, and all of it is compared, on refusals too.
 * Exit: 0 no difference, 1 a difference, which is printed. */
#define _GNU_SOURCE
#include "rudignals.h"
#include <stdbool.h>
#include <stdio.h>
#include <stdlib.h>
#include <string.h>
#include <sys/mman.h>

#define LIMIT 65536u
#define MOST (2 * LIMIT)

/* ---- the model: a text is looked at byte by byte; nothing is shared with the library */

/* how many bytes the character at the front has, by the table of RFC 3629, section 4; 0 if none begins there */
static size_t character(const uint8_t *s, size_t n)
{
    static const struct { uint8_t first, last, low, high; size_t length; } rows[] = {
        {0x00, 0x7F, 0, 0, 1},       {0xC2, 0xDF, 0x80, 0xBF, 2}, {0xE0, 0xE0, 0xA0, 0xBF, 3},
        {0xE1, 0xEC, 0x80, 0xBF, 3}, {0xED, 0xED, 0x80, 0x9F, 3}, {0xEE, 0xEF, 0x80, 0xBF, 3},
        {0xF0, 0xF0, 0x90, 0xBF, 4}, {0xF1, 0xF3, 0x80, 0xBF, 4}, {0xF4, 0xF4, 0x80, 0x8F, 4}};
    for (size_t r = 0; r < sizeof rows / sizeof *rows; r++) {
        if (s[0] < rows[r].first || s[0] > rows[r].last)
            continue;
        if (rows[r].length > n)
            return 0;
        if (rows[r].length > 1 && (s[1] < rows[r].low || s[1] > rows[r].high))
            return 0;
        for (size_t i = 2; i < rows[r].length; i++)
            if (s[i] < 0x80 || s[i] > 0xBF)
                return 0;
        return rows[r].length;
    }
    return 0;
}

static bool well_formed(const uint8_t *s, size_t n)
{
    while (n) {
        size_t c = character(s, n);
        if (!c)
            return false;
        s += c, n -= c;
    }
    return true;
}

struct mended {
    uint8_t copy[2 * MOST];
    uint32_t places[MOST];
    uint8_t bytes[MOST];
    size_t length, changes;
};

static void same(struct mended *to, const struct mended *from)
{
    memcpy(to->copy, from->copy, from->length);
    memcpy(to->places, from->places, from->changes * sizeof *from->places);
    memcpy(to->bytes, from->bytes, from->changes);
    to->length = from->length, to->changes = from->changes;
}

static void model_mend(const uint8_t *notes, size_t n, struct mended *m)
{
    m->length = m->changes = 0;
    for (size_t at = 0; at < n;) {
        size_t end = at;
        while (end < n && notes[end] != '\n')
            end++;
        bool good = well_formed(notes + at, end - at);
        if (end < n)
            end++;
        for (; at < end; at++) {
            uint8_t b = notes[at];
            if (good || b < 0x80) {
                m->copy[m->length++] = b;
                continue;
            }
            m->places[m->changes] = (uint32_t)at;
            m->bytes[m->changes++] = b;
            m->copy[m->length++] = b < 0xC0 ? 0xC2 : 0xC3; /* U+0080 to U+00BF, U+00C0 to U+00FF */
            m->copy[m->length++] = b < 0xC0 ? b : b - 0x40;
        }
    }
}

/* the first entry that does not belong, or their number; the old notes with it */
static size_t model_restore(const uint8_t *copy, size_t n, const uint32_t *places, const uint8_t *bytes, size_t entries, uint8_t *notes, size_t *length)
{
    size_t at = 0, k = 0; /* a place of the copy; the old place is at - k */
    *length = 0;
    while (k < entries) {
        if (bytes[k] < 0x80 || places[k] < at - k)
            return k;
        size_t to = (size_t)places[k] + k;
        if (to + 2 > n || copy[to] != (bytes[k] < 0xC0 ? 0xC2 : 0xC3) || copy[to + 1] != (bytes[k] < 0xC0 ? bytes[k] : bytes[k] - 0x40))
            return k;
        while (at < to)
            notes[(*length)++] = copy[at++];
        notes[(*length)++] = bytes[k++];
        at += 2;
    }
    while (at < n)
        notes[(*length)++] = copy[at++];
    return entries;
}

/* ---- slices between guards */

struct area {
    uint8_t *start;
    size_t size;
};

static struct area area(size_t size)
{
    size_t page = 65536, whole = (size + page - 1) / page * page;
    uint8_t *p = mmap(NULL, whole + 2 * page, PROT_READ | PROT_WRITE, MAP_PRIVATE | MAP_ANONYMOUS, -1, 0);
    if (p == MAP_FAILED || mprotect(p, page, PROT_NONE) || mprotect(p + page + whole, page, PROT_NONE)) {
        perror("mmap");
        exit(1);
    }
    return (struct area){p + page, whole};
}

/* so many bytes at the end of an area, or at its front */
static uint8_t *part(struct area a, size_t bytes, bool front)
{
    return front ? a.start : a.start + a.size - bytes;
}

static struct area notes_area, copy_area, places_area, bytes_area, back_area;
static const char *fault = "";
static unsigned long long calls, codes[12];

static uint64_t state;
static uint32_t any(uint32_t below)
{
    state = state * 6364136223846793005u + 1442695040888963407u;
    return (uint32_t)(((state >> 32) * below) >> 32);
}

static void print(const char *what, const uint8_t *s, size_t n)
{
    printf("%s (%zu):", what, n);
    for (size_t i = 0; i < n && i < 200; i++)
        printf(" %02X", s[i]);
    printf("\n");
}

static void differs(const char *what, const uint8_t *notes, size_t n, size_t room, size_t places, size_t bytes, uint64_t got, uint64_t want)
{
    printf("%s differs: room %zu, places %zu, bytes %zu, answer %llu.%llu, expected %llu.%llu\n", what, room, places, bytes,
           (unsigned long long)(got >> 32), (unsigned long long)(got & 0xFFFFFFFF), (unsigned long long)(want >> 32), (unsigned long long)(want & 0xFFFFFFFF));
    print("notes", notes, n);
    exit(1);
}

/* ---- one call of each, against the model */

static struct mended right;
static uint8_t old_copy[4 * LIMIT + 256], old_bytes[MOST + 256], back[2 * MOST], old_back[2 * MOST + 256];
static uint32_t old_places[MOST + 256];

static void try_mend(const uint8_t *notes, size_t n, size_t room, size_t places_len, size_t bytes_len)
{
    bool front = any(2);
    uint8_t *in = part(notes_area, n, front), *copy = part(copy_area, room, front), *bytes = part(bytes_area, bytes_len, front);
    uint32_t *places = (uint32_t *)(void *)part(places_area, places_len * 4, front);
    memcpy(in, notes, n);
    for (size_t i = 0; i < room; i++)
        old_copy[i] = copy[i] = (uint8_t)any(256);
    for (size_t i = 0; i < places_len; i++)
        old_places[i] = places[i] = any(0xFFFFFFFF);
    for (size_t i = 0; i < bytes_len; i++)
        old_bytes[i] = bytes[i] = (uint8_t)any(256);
    size_t entries = places_len < bytes_len ? places_len : bytes_len;
    uint64_t want;
    if (n > LIMIT)
        want = 2ull << 32;
    else if (right.changes > entries)
        want = 7ull << 32 | right.changes;
    else if (right.length > room)
        want = 5ull << 32 | right.length;
    else {
        want = right.length;
        memcpy(old_copy, right.copy, right.length);
        memcpy(old_places, right.places, right.changes * 4);
        memcpy(old_bytes, right.bytes, right.changes);
    }
    uint64_t got = rudignals_mend(in, n, copy, room, places, places_len, bytes, bytes_len);
    calls++, codes[want >> 32]++;
    if (!strcmp(fault, "number"))
        got++;
    if (!strcmp(fault, "refused") && got >> 32 && room)
        copy[room - 1] ^= 1;
    if (!strcmp(fault, "beyond") && !(got >> 32) && room > right.length)
        copy[room - 1] ^= 1;
    if (!strcmp(fault, "place") && !(got >> 32) && right.changes)
        places[right.changes - 1]++;
    if (!strcmp(fault, "byte") && bytes_len)
        bytes[bytes_len - 1] ^= 1;
    if (!strcmp(fault, "read"))
        (void)*(volatile uint8_t *)(in - (front ? 1 : 0) + (front ? 0 : n));
    if (got != want || memcmp(in, notes, n) || memcmp(copy, old_copy, room) || memcmp(places, old_places, places_len * 4) || memcmp(bytes, old_bytes, bytes_len))
        differs("mend", notes, n, room, places_len, bytes_len, got, want);
}

static void try_restore(const uint8_t *text, size_t n, const uint32_t *list, const uint8_t *listed, size_t places_len, size_t bytes_len, size_t room)
{
    bool front = any(2);
    uint8_t *in = part(copy_area, n, front), *bytes = part(bytes_area, bytes_len, front), *out = part(back_area, room, front);
    uint32_t *places = (uint32_t *)(void *)part(places_area, places_len * 4, front);
    memcpy(in, text, n);
    memcpy(places, list, places_len * 4);
    memcpy(bytes, listed, bytes_len);
    for (size_t i = 0; i < room; i++)
        old_back[i] = out[i] = (uint8_t)any(256);
    size_t entries = places_len < bytes_len ? places_len : bytes_len, length = 0;
    size_t fit = n > MOST ? 0 : model_restore(text, n, list, listed, entries, back, &length);
    uint64_t want;
    if (n > MOST)
        want = 2ull << 32;
    else if (fit < entries)
        want = 11ull << 32 | fit;
    else if (length > room)
        want = 5ull << 32 | length;
    else {
        want = length;
        memcpy(old_back, back, length);
    }
    uint64_t got = rudignals_restore(in, n, places, places_len, bytes, bytes_len, out, room);
    calls++, codes[want >> 32]++;
    if (!strcmp(fault, "restored") && room)
        out[room - 1] ^= 1;
    if (got != want || memcmp(in, text, n) || memcmp(out, old_back, room) || memcmp(places, list, places_len * 4) || memcmp(bytes, listed, bytes_len))
        differs("restore", text, n, room, places_len, bytes_len, got, want);
}

/* a text: mended with all kinds of room; restored, with right and wrong lists; mended again */
static void try_text(const uint8_t *notes, size_t n)
{
    static struct mended first;
    model_mend(notes, n, &right);
    size_t c = right.changes, l = right.length;
    if (n > LIMIT) {
        try_mend(notes, n, l, c, c);
        try_mend(notes, n, 0, 0, 0);
        return;
    }
    try_mend(notes, n, l, c, c);
    try_mend(notes, n, l + any(40), c + any(5), c + any(5));
    if (l)
        try_mend(notes, n, l - 1 - any((uint32_t)(l < 9 ? l : 9)), c, c + 1);
    if (c) {
        try_mend(notes, n, l, c - 1, c);
        try_mend(notes, n, l, c, c - 1 - any((uint32_t)c));
        try_mend(notes, n, l - 1, c - 1, c - 1);
    }
    if (c && (l != n + c))
        differs("the number of changes", notes, n, l, c, c, l, n + c);
    same(&first, &right);
    try_restore(first.copy, l, first.places, first.bytes, c, c, n);
    if (n != 0 && model_restore(first.copy, l, first.places, first.bytes, c, back, &(size_t){0}) == c && memcmp(back, notes, n))
        differs("the way back of the model", notes, n, l, c, c, 0, 0);
    try_restore(first.copy, l, first.places, first.bytes, c, c, n + any(20));
    if (n)
        try_restore(first.copy, l, first.places, first.bytes, c, c, n - 1 - any((uint32_t)(n < 9 ? n : 9)));
    if (c) {
        size_t k = any((uint32_t)c);
        static struct mended wrong;
        same(&wrong, &first);
        wrong.places[k] += any(2) ? 1 : (uint32_t)-1;
        try_restore(wrong.copy, l, wrong.places, wrong.bytes, c, c, n + 8);
        same(&wrong, &first);
        wrong.bytes[k] = (uint8_t)any(256);
        try_restore(wrong.copy, l, wrong.places, wrong.bytes, c, c, n + 8);
        same(&wrong, &first);
        wrong.copy[any((uint32_t)l)] ^= 1u << any(8);
        try_restore(wrong.copy, l, wrong.places, wrong.bytes, c, c, n + 8);
        same(&wrong, &first);
        wrong.places[k] = any(2) ? any(0xFFFFFFFF) : any((uint32_t)(n + 3));
        try_restore(wrong.copy, l, wrong.places, wrong.bytes, c, c, n + 8);
        try_restore(first.copy, l - any((uint32_t)(l < 4 ? l : 4)), first.places, first.bytes, c, c, n);
        try_restore(first.copy, l, first.places, first.bytes, c - 1, c, n + 1);
        try_restore(first.copy, l, first.places, first.bytes, c, c - 1, n + any(3));
    }
    /* a copy within the limit, mended again */
    if (l <= LIMIT) {
        model_mend(first.copy, l, &right);
        if (right.changes || right.length != l)
            differs("mending again, in the model", notes, n, l, c, c, 0, 0);
        try_mend(first.copy, l, l, 0, 0);
    }
}

/* ---- by hand: notes, copy, places and bytes as RULES 14 has them */

struct hand {
    const char *notes, *copy;
    size_t n, l, changes;
    uint32_t places[8];
    uint8_t bytes[8];
};

#define TEXT(notes, copy) notes, copy, sizeof notes - 1, sizeof copy - 1
static const struct hand hands[] = {
    {TEXT("", ""), 0, {0}, {0}},
    {TEXT("\n", "\n"), 0, {0}, {0}},
    {TEXT("plain\n", "plain\n"), 0, {0}, {0}},
    {TEXT("\x7F\n", "\x7F\n"), 0, {0}, {0}},
    {TEXT("\x00\x7F\xE9", "\x00\x7F\xC3\xA9"), 1, {2}, {0xE9}},
    /* two broken lines */
    {TEXT("\xE2\x82\n\xAC", "\xC3\xA2\xC2\x82\n\xC2\xAC"), 3, {0, 1, 3}, {0xE2, 0x82, 0xAC}},
    /* one bad byte mends its whole line, and no other */
    {TEXT("\xC3\xA9\xE9", "\xC3\x83\xC2\xA9\xC3\xA9"), 3, {0, 1, 2}, {0xC3, 0xA9, 0xE9}},
    {TEXT("\xC3\xA9\n\xE9\n\xC3\xA9\n", "\xC3\xA9\n\xC3\xA9\n\xC3\xA9\n"), 1, {3}, {0xE9}},
    /* well formed: two, three and four bytes, beyond what formatting accepts too */
    {TEXT("\xC2\xAD\xE2\x82\xAC\xF0\x9F\x98\x80\xF4\x8F\xBF\xBF\n", "\xC2\xAD\xE2\x82\xAC\xF0\x9F\x98\x80\xF4\x8F\xBF\xBF\n"), 0, {0}, {0}},
    /* a surrogate, past the last character, overlong, F5 */
    {TEXT("\xED\xA0\x80", "\xC3\xAD\xC2\xA0\xC2\x80"), 3, {0, 1, 2}, {0xED, 0xA0, 0x80}},
    {TEXT("\xF4\x90\x80\x80", "\xC3\xB4\xC2\x90\xC2\x80\xC2\x80"), 4, {0, 1, 2, 3}, {0xF4, 0x90, 0x80, 0x80}},
    {TEXT("\xC0\x80", "\xC3\x80\xC2\x80"), 2, {0, 1}, {0xC0, 0x80}},
    {TEXT("\xE0\x9F\xBF", "\xC3\xA0\xC2\x9F\xC2\xBF"), 3, {0, 1, 2}, {0xE0, 0x9F, 0xBF}},
    {TEXT("\xF0\x8F\xBF\xBF", "\xC3\xB0\xC2\x8F\xC2\xBF\xC2\xBF"), 4, {0, 1, 2, 3}, {0xF0, 0x8F, 0xBF, 0xBF}},
    {TEXT("\xF5\x80\x80\x80", "\xC3\xB5\xC2\x80\xC2\x80\xC2\x80"), 4, {0, 1, 2, 3}, {0xF5, 0x80, 0x80, 0x80}},
    {TEXT("a\xFF", "a\xC3\xBF"), 1, {1}, {0xFF}},
    /* cut short by a line's end and by the text's; only a line feed ends a line */
    {TEXT("\xF0\x9F\x98\n\x80", "\xC3\xB0\xC2\x9F\xC2\x98\n\xC2\x80"), 4, {0, 1, 2, 4}, {0xF0, 0x9F, 0x98, 0x80}},
    {TEXT("ok\r\n\xE9\r\n", "ok\r\n\xC3\xA9\r\n"), 1, {4}, {0xE9}},
    {TEXT("\xC3\xA9\r\xE9\n", "\xC3\x83\xC2\xA9\r\xC3\xA9\n"), 3, {0, 1, 3}, {0xC3, 0xA9, 0xE9}},
    {TEXT("\xC2\x85\xE9\v\f\n", "\xC3\x82\xC2\x85\xC3\xA9\v\f\n"), 3, {0, 1, 2}, {0xC2, 0x85, 0xE9}},
};

static void by_hand(void)
{
    for (size_t i = 0; i < sizeof hands / sizeof *hands; i++) {
        const struct hand *h = &hands[i];
        model_mend((const uint8_t *)h->notes, h->n, &right);
        if (right.length != h->l || right.changes != h->changes || memcmp(right.copy, h->copy, h->l) || memcmp(right.places, h->places, h->changes * 4) || memcmp(right.bytes, h->bytes, h->changes)) {
            printf("case %zu by hand: the model differs\n", i);
            exit(1);
        }
        for (int turn = 0; turn < 20; turn++)
            try_text((const uint8_t *)h->notes, h->n);
    }
    /* the limit: 65,536 bytes and one more, all broken, all plain, one line and many */
    static uint8_t big[LIMIT + 2];
    for (int kind = 0; kind < 4; kind++)
        for (size_t n = LIMIT - 1; n <= LIMIT + 1; n++) {
            memset(big, kind & 1 ? 0xE9 : 'a', n);
            if (kind & 2)
                for (size_t i = 60; i < n; i += 61)
                    big[i] = '\n';
            try_text(big, n);
        }
    /* a copy of 131,072 bytes and one more; a list longer than the copy */
    static uint8_t text[MOST + 1];
    static uint32_t zeros[8];
    static uint8_t highs[8] = {0xE9, 0xE9, 0xE9, 0xE9, 0xE9, 0xE9, 0xE9, 0xE9};
    memset(text, 'a', sizeof text);
    try_restore(text, MOST, zeros, highs, 0, 0, MOST);
    try_restore(text, MOST + 1, zeros, highs, 0, 0, MOST + 1);
    try_restore(text, MOST + 1, zeros, highs, 1, 1, 4);
    try_restore((const uint8_t *)"\xC3\xA9", 2, zeros, highs, 8, 8, 4);
    /* a low byte in the list, though it stands in the copy */
    uint8_t low[1] = {'a'};
    try_restore((const uint8_t *)"aa", 2, zeros, low, 1, 1, 4);
    printf("by hand: %zu texts and the limits, %llu calls, no difference\n", sizeof hands / sizeof *hands, calls);
}

/* ---- at scale */

static size_t put(uint8_t *to, uint32_t c)
{
    if (c < 0x80)
        return to[0] = (uint8_t)c, 1;
    if (c < 0x800)
        return to[0] = (uint8_t)(0xC0 | c >> 6), to[1] = (uint8_t)(0x80 | (c & 63)), 2;
    if (c < 0x10000)
        return to[0] = (uint8_t)(0xE0 | c >> 12), to[1] = (uint8_t)(0x80 | (c >> 6 & 63)), to[2] = (uint8_t)(0x80 | (c & 63)), 3;
    return to[0] = (uint8_t)(0xF0 | c >> 18), to[1] = (uint8_t)(0x80 | (c >> 12 & 63)), to[2] = (uint8_t)(0x80 | (c >> 6 & 63)), to[3] = (uint8_t)(0x80 | (c & 63)), 4;
}

static size_t generate(uint8_t *to)
{
    static const uint8_t nasty[] = {0x00, 0x0A, 0x0D, 0x20, 0x41, 0x7F, 0x80, 0x8F, 0x90, 0x9F, 0xA0, 0xBF, 0xC0, 0xC1, 0xC2, 0xC3, 0xDF,
                                    0xE0, 0xE1, 0xE2, 0xEC, 0xED, 0xEE, 0xEF, 0xF0, 0xF1, 0xF3, 0xF4, 0xF5, 0xF7, 0xF8, 0xFE, 0xFF};
    size_t size = any(100) < 97 ? any(any(10) < 7 ? 24 : 400) : any(5000), n = 0;
    uint32_t kind = any(5), damage = any(4) ? any(60) : 0;
    while (n < size) {
        uint32_t c = any(100);
        if (kind == 0 || c < damage)
            to[n++] = nasty[any(sizeof nasty)];
        else if (c > 94)
            to[n++] = '\n';
        else if (kind == 1)
            to[n++] = (uint8_t)any(256);
        else if (kind == 2)
            to[n++] = (uint8_t)(any(3) ? 'a' + any(26) : 0xA0 + any(96));
        else if (kind == 3)
            to[n++] = (uint8_t)(' ' + any(95));
        else
            n += put(to + n, any(4) ? any(0x500) : any(2) ? any(0x10000) : any(0x110000)); /* surrogates among them */
    }
    return n;
}

static void at_scale(uint64_t seed, unsigned long long count)
{
    static uint8_t notes[LIMIT];
    state = seed;
    for (unsigned long long i = 0; i < count; i++)
        try_text(notes, generate(notes));
    printf("at scale: seed %llu, %llu texts, %llu calls, no difference; code 0 %llu, 2 %llu, 5 %llu, 7 %llu, 11 %llu\n", (unsigned long long)seed, count, calls, codes[0], codes[2], codes[5], codes[7], codes[11]);
}

int main(int argc, char **argv)
{
    notes_area = area(LIMIT + 2);
    copy_area = area(4 * LIMIT + 256);
    places_area = area((MOST + 256) * 4);
    bytes_area = area(MOST + 256);
    back_area = area(2 * MOST + 256);
    state = 1;
    if (argc == 2 && !strcmp(argv[1], "hand"))
        by_hand();
    else if (argc == 4 && !strcmp(argv[1], "scale"))
        at_scale(strtoull(argv[2], NULL, 10), strtoull(argv[3], NULL, 10));
    else if (argc == 3 && !strcmp(argv[1], "tamper")) {
        fault = argv[2];
        at_scale(7, 2000);
    } else if (argc == 2 && !strcmp(argv[1], "mend")) {
        static uint8_t notes[LIMIT + 1];
        size_t n = fread(notes, 1, sizeof notes, stdin);
        uint64_t answer = rudignals_mend(notes, n, right.copy, sizeof right.copy, right.places, MOST, right.bytes, MOST);
        if (answer >> 32) {
            fprintf(stderr, "refused %llu %llu\n", (unsigned long long)(answer >> 32), (unsigned long long)(answer & 0xFFFFFFFF));
            return 1;
        }
        fwrite(right.copy, 1, (size_t)answer, stdout);
    } else
        return 2;
    return 0;
}
