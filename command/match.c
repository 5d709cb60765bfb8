/* The longest matching of two sequences of words, by Myers' way in linear room ("An O(ND) difference algorithm and its variations", 1986).
 *
 * What agrees at both ends is matched first, and words that only one side has are left out: neither costs a match. Where one sequence
 * is part of the other, which is the most frequent case, every word of the shorter one is matched. */
#include "match.h"

#include <stdlib.h>
#include <string.h>

bool same_words_throughout(struct inks left, struct inks right) {
    struct ink a, b;
    bool more_left, more_right;
    do {
        more_left = next_ink(&left, &a);
        more_right = next_ink(&right, &b);
        if (more_left != more_right || (more_left && !same_ink(&a, &b)))
            return false;
    } while (more_left);
    return true;
}

/* ---- sequences */

static bool add_ink(struct sequence *sequence, const struct ink *ink) {
    size_t room = sequence->room == 0 ? 1024 : 2 * sequence->room;
    struct ink *wider;
    if (sequence->length == sequence->room) {
        wider = realloc(sequence->inks, room * sizeof *wider);
        if (wider == NULL)
            return false;
        sequence->inks = wider;
        sequence->room = room;
    }
    sequence->inks[sequence->length++] = *ink;
    return true;
}

static bool add_rest(struct sequence *sequence, struct inks *rest) {
    struct ink ink;
    while (next_ink(rest, &ink))
        if (!add_ink(sequence, &ink))
            return false;
    sequence->numbers = calloc(sequence->length + 1, sizeof *sequence->numbers);
    sequence->matched = calloc(sequence->length + 1, sizeof *sequence->matched);
    return sequence->numbers != NULL && sequence->matched != NULL;
}

/* Both up to the first word that differs; that word of each is the first of its sequence. */
static bool skip_common(struct matching *matching, struct inks *left, struct inks *right) {
    struct ink a, b;
    bool more_left, more_right;
    for (;;) {
        more_left = next_ink(left, &a);
        more_right = next_ink(right, &b);
        if (!more_left || !more_right || !same_ink(&a, &b))
            break;
        matching->before++;
        matching->last[0] = a;
        matching->last[1] = b;
    }
    return (!more_left || add_ink(&matching->left, &a)) && (!more_right || add_ink(&matching->right, &b));
}

/* ---- numbers for words, by a table of places that are found by the words' hash */

struct names {
    const struct ink **first; /* a word with this number */
    uint32_t *slots;          /* number + 1, or 0 */
    size_t mask;
    uint32_t count;
    uint32_t *times[2]; /* how often each stands in the left and in the right sequence */
};

/* FNV-1a; of whole lines blanks are left out, since two that differ there alone are the same. */
static size_t hash_of(const struct ink *ink) {
    uint64_t hash = 14695981039346656037u;
    const uint8_t *at = ink->bytes, *end = ink->bytes + ink->length;
    size_t blank;
    while (at < end) {
        blank = ink->whole ? blank_at(at, end) : 0;
        if (blank == 0)
            hash = (hash ^ *at) * 1099511628211u;
        at += blank == 0 ? 1 : blank;
    }
    return (size_t)(hash ^ hash >> 32);
}

static uint32_t number_of(struct names *names, const struct ink *ink) {
    size_t slot = hash_of(ink) & names->mask;
    while (names->slots[slot] != 0 && !same_ink(names->first[names->slots[slot] - 1], ink))
        slot = (slot + 1) & names->mask;
    if (names->slots[slot] == 0) {
        names->first[names->count] = ink;
        names->slots[slot] = ++names->count;
    }
    return names->slots[slot] - 1;
}

static void number_all(struct names *names, struct sequence *sequence, int side) {
    size_t i;
    for (i = 0; i < sequence->length; i++) {
        sequence->numbers[i] = number_of(names, &sequence->inks[i]);
        names->times[side][sequence->numbers[i]]++;
    }
}

static bool make_names(struct names *names, size_t words) {
    size_t slots = 1024;
    while (slots < 2 * words)
        slots *= 2;
    names->mask = slots - 1;
    names->count = 0;
    names->slots = calloc(slots, sizeof *names->slots);
    names->first = calloc(words + 1, sizeof *names->first);
    names->times[0] = calloc(words + 1, sizeof *names->times[0]);
    names->times[1] = calloc(words + 1, sizeof *names->times[1]);
    return names->slots != NULL && names->first != NULL && names->times[0] != NULL && names->times[1] != NULL;
}

static void free_names(struct names *names) {
    free(names->slots);
    free(names->first);
    free(names->times[0]);
    free(names->times[1]);
}

/* ---- the matching */

/* A stretch of the words that both sides have, each by its number and its place in its sequence. */
struct strand {
    uint32_t *numbers;
    size_t *places;
    bool *matched;
    size_t length;
};

/* A part of both strands that is still to be matched. */
struct box {
    long left, left_end, right, right_end;
};

/* How far a way with so many changes gets on each diagonal, left place less right place: from the front as far as may be, and from the
 * end. A diagonal that no way has got to has a value that loses every comparison. */
struct reach {
    long *front, *end; /* may be indexed from the least diagonal less 1 to the greatest and 1 */
    bool sure;         /* every way taken was the best */
};

enum { NOWHERE = -1 };
static const long BEYOND = (long)(~0ul >> 1);

/* The diagonals that ways of one direction have got to. */
struct fan {
    long low, high;
};

struct point {
    long left, right;
};

/* From so many changes in each direction on the way taken is a good one and no longer sure to be the best: no pair is to take minutes. */
enum { MOST_CHANGES = 30000 };

static bool equal_at(const struct strand *a, const struct strand *b, long left, long right) { return a->numbers[left] == b->numbers[right]; }

static void match_pair(struct strand *a, struct strand *b, long left, long right) {
    a->matched[a->places[left]] = true;
    b->matched[b->places[right]] = true;
}

static void match_ends(struct strand *a, struct strand *b, struct box *box) {
    while (box->left < box->left_end && box->right < box->right_end && equal_at(a, b, box->left, box->right))
        match_pair(a, b, box->left++, box->right++);
    while (box->left < box->left_end && box->right < box->right_end && equal_at(a, b, box->left_end - 1, box->right_end - 1))
        match_pair(a, b, --box->left_end, --box->right_end);
}

/* With one change more the fan has a diagonal more on each side, as far as the box has diagonals; on the side where it has none the fan
 * draws back by one, since diagonals are taken every other time. */
static void widen_fan(struct fan *fan, const struct box *box, long *reached, long unreached) {
    if (fan->low > box->left - box->right_end)
        reached[--fan->low - 1] = unreached;
    else
        fan->low++;
    if (fan->high < box->left_end - box->right)
        reached[++fan->high + 1] = unreached;
    else
        fan->high--;
}

/* One change more from the front. Answers true, with the point, if a way meets one from the end. */
static bool go_on(const struct strand *a, const struct strand *b, const struct box *box, const struct reach *reach, struct fan *front, const struct fan *end, bool odd, struct point *met) {
    long *at = reach->front, d, left;
    widen_fan(front, box, at, NOWHERE);
    for (d = front->high; d >= front->low; d -= 2) {
        left = at[d - 1] < at[d + 1] ? at[d + 1] : at[d - 1] + 1;
        while (left < box->left_end && left - d < box->right_end && equal_at(a, b, left, left - d))
            left++;
        at[d] = left;
        if (odd && d >= end->low && d <= end->high && reach->end[d] <= left) {
            *met = (struct point){left, left - d};
            return true;
        }
    }
    return false;
}

static bool come_back(const struct strand *a, const struct strand *b, const struct box *box, const struct reach *reach, const struct fan *front, struct fan *end, bool odd, struct point *met) {
    long *at = reach->end, d, left;
    widen_fan(end, box, at, BEYOND);
    for (d = end->high; d >= end->low; d -= 2) {
        left = at[d - 1] < at[d + 1] ? at[d - 1] : at[d + 1] - 1;
        while (left > box->left && left - d > box->right && equal_at(a, b, left - 1, left - d - 1))
            left--;
        at[d] = left;
        if (!odd && d >= front->low && d <= front->high && left <= reach->front[d]) {
            *met = (struct point){left, left - d};
            return true;
        }
    }
    return false;
}

/* The point that has got furthest from the front. */
static struct point furthest(const struct box *box, const struct reach *reach, const struct fan *front) {
    struct point best = {box->left, box->right};
    long d, left;
    for (d = front->high; d >= front->low; d -= 2) {
        left = reach->front[d] < box->left_end ? reach->front[d] : box->left_end;
        if (left - d > box->right_end)
            left = box->right_end + d;
        if (left + (left - d) > best.left + best.right)
            best = (struct point){left, left - d};
    }
    return best;
}

/* A point through which a longest matching goes. The box has a word on both sides, and its first words differ, as its last do. */
static struct point halfway(const struct strand *a, const struct strand *b, const struct box *box, struct reach *reach) {
    long first = box->left - box->right, last = box->left_end - box->right_end, changes;
    struct fan front = {first, first}, end = {last, last};
    bool odd = (first - last) % 2 != 0;
    struct point met;
    reach->front[first] = box->left;
    reach->end[last] = box->left_end;
    for (changes = 1; changes < MOST_CHANGES; changes++)
        if (go_on(a, b, box, reach, &front, &end, odd, &met) || come_back(a, b, box, reach, &front, &end, odd, &met))
            return met;
    reach->sure = false;
    return furthest(box, reach, &front);
}

static void match_box(struct strand *a, struct strand *b, struct box box, struct reach *reach) {
    struct point at;
    match_ends(a, b, &box);
    if (box.left == box.left_end || box.right == box.right_end)
        return;
    at = halfway(a, b, &box, reach);
    match_box(a, b, (struct box){box.left, at.left, box.right, at.right}, reach);
    match_box(a, b, (struct box){at.left, box.left_end, at.right, box.right_end}, reach);
}

/* ---- where one sequence is part of the other */

static bool is_part(const struct sequence *part, const struct sequence *whole) {
    size_t i = 0, j;
    for (j = 0; j < whole->length && i < part->length; j++)
        i += whole->numbers[j] == part->numbers[i];
    return i == part->length;
}

/* Matches each word of the part with the next one of the whole that equals it. */
static void match_part(struct sequence *part, struct sequence *whole) {
    size_t i = 0, j;
    for (j = 0; j < whole->length; j++) {
        whole->matched[j] = i < part->length && whole->numbers[j] == part->numbers[i];
        if (whole->matched[j])
            part->matched[i++] = true;
    }
}

/* What no search was sure of is put right where it is plain: it decides whether text is missing, added or both. */
static void match_parts(struct matching *matching) {
    if (is_part(&matching->right, &matching->left))
        match_part(&matching->right, &matching->left);
    else if (is_part(&matching->left, &matching->right))
        match_part(&matching->left, &matching->right);
}

/* ---- together */

/* The words of a sequence that the other has, too. */
static bool strand_of(struct strand *strand, struct sequence *sequence, const uint32_t *others) {
    size_t i;
    strand->length = 0;
    strand->matched = sequence->matched;
    strand->numbers = malloc((sequence->length + 1) * sizeof *strand->numbers);
    strand->places = malloc((sequence->length + 1) * sizeof *strand->places);
    if (strand->numbers == NULL || strand->places == NULL)
        return false;
    for (i = 0; i < sequence->length; i++)
        if (others[sequence->numbers[i]] > 0) {
            strand->numbers[strand->length] = sequence->numbers[i];
            strand->places[strand->length++] = i;
        }
    return true;
}

static bool match_strands(struct strand *a, struct strand *b, bool *sure) {
    size_t diagonals = a->length + b->length + 3;
    long *room = malloc(2 * diagonals * sizeof *room);
    struct reach reach;
    if (room == NULL)
        return false;
    reach.front = room + b->length + 1;
    reach.end = room + diagonals + b->length + 1;
    reach.sure = true;
    match_box(a, b, (struct box){0, (long)a->length, 0, (long)b->length}, &reach);
    *sure = reach.sure;
    free(room);
    return true;
}

static bool match_sequences(struct matching *matching) {
    struct names names = {0};
    struct strand a = {0}, b = {0};
    bool well = make_names(&names, matching->left.length + matching->right.length), sure = true;
    if (well) {
        number_all(&names, &matching->left, 0);
        number_all(&names, &matching->right, 1);
        well = strand_of(&a, &matching->left, names.times[1]) && strand_of(&b, &matching->right, names.times[0]) && match_strands(&a, &b, &sure);
    }
    if (well && !sure)
        match_parts(matching);
    free(a.numbers);
    free(a.places);
    free(b.numbers);
    free(b.places);
    free_names(&names);
    return well;
}

static size_t without_match(const struct sequence *sequence) {
    size_t count = 0, i;
    for (i = 0; i < sequence->length; i++)
        count += !sequence->matched[i];
    return count;
}

bool match(struct matching *matching, struct inks left, struct inks right) {
    *matching = (struct matching){0};
    if (!skip_common(matching, &left, &right) || !add_rest(&matching->left, &left) || !add_rest(&matching->right, &right) || !match_sequences(matching))
        return false;
    matching->missing = without_match(&matching->left);
    matching->added = without_match(&matching->right);
    return true;
}

static void free_sequence(struct sequence *sequence) {
    free(sequence->inks);
    free(sequence->numbers);
    free(sequence->matched);
}

void free_matching(struct matching *matching) {
    free_sequence(&matching->left);
    free_sequence(&matching->right);
}
