/* A digest of any length, held against its notes part by part.
 *
 * The digest of notes is that of their first part and then that of the rest, and so is every digest that is accepted: the library reads both
 * piece by piece. Where the part's own digest ends is known by the blank lines: one of the notes is an empty line of the digest, and no other
 * line is. Where that is not so, or no blank line stands there, the library tells: of more than the part's digest it names the first line
 * after it, and accepts what is before. Else the line that it names is the first of the whole that cannot be right. */
#include "accept.h"

#include "damage.h"
#include "ink.h"
#include "lines.h"
#include "nextmail.h"
#include "parts.h"

#include <string.h>

/* What is judged, and how far. */
struct judging {
    struct work work;
    struct bytes block, notes, digest; /* of the digest what is left */
    struct part part;
    uint64_t lines_before; /* of the digest */
};

static const struct judgement GOOD = {ACCEPTED, 0, 0, 0};

static bool is_last(const struct judging *judging) { return judging->part.bytes_before + judging->part.length == judging->notes.length; }

static uint64_t ask(struct judging *judging, size_t digest) {
    uint8_t room[RUDIGNALS_MOST_BLOCK];
    struct bytes part = {judging->part.bytes, judging->part.length};
    return lent_check(&judging->work, block_of_part(judging->block, &judging->part, room), part, (struct bytes){judging->digest.at, digest});
}

static bool is_accepted(struct judging *judging, size_t digest) { return rudignals_code_of(ask(judging, digest)) == RUDIGNALS_DONE; }

static struct judgement go_behind(struct judging *judging, size_t digest) {
    judging->lines_before += feeds(judging->digest.at, digest);
    judging->digest = (struct bytes){judging->digest.at == NULL ? NULL : judging->digest.at + digest, judging->digest.length - digest};
    return GOOD;
}

/* ---- where the part's digest ends, by blank lines */

static bool is_blank(const uint8_t *line, size_t length) {
    const uint8_t *at = line, *end = line + length;
    size_t blank;
    while ((blank = blank_at(at, end)) > 0)
        at += blank;
    return at == end;
}

/* After so many empty lines; or before the next one, or at the end. */
static size_t behind_empty(struct bytes digest, size_t count, bool before_next) {
    struct lines lines = read_lines(digest.at, digest.length);
    while ((count > 0 || before_next) && next_line(&lines)) {
        if (lines.length > 1 || !lines.fed)
            continue;
        if (count == 0)
            return lines.next - 1;
        count--;
    }
    return lines.next;
}

static size_t end_by_blanks(const struct judging *judging) {
    struct lines lines = read_lines(judging->part.bytes, judging->part.length);
    size_t count = 0;
    bool last = false;
    while (next_line(&lines)) {
        last = is_blank(lines.line, lines.length);
        count += last;
    }
    return behind_empty(judging->digest, count, !last);
}

/* ---- where it ends, by the library */

static size_t lines_of(struct bytes digest, size_t most) {
    size_t end = digest.length < most ? digest.length : most;
    while (end < digest.length && end > 0 && digest.at[end - 1] != '\n')
        end--;
    return end;
}

static size_t start_of_line(struct bytes digest, uint64_t line) {
    struct lines lines = read_lines(digest.at, digest.length);
    while (lines.number < line && next_line(&lines))
        continue;
    return lines.next;
}

static struct judgement refused(const struct judging *judging, uint64_t answer) {
    return (struct judgement){NOT_JUDGED, 0, rudignals_code_of(answer), judging->part.bytes_before + rudignals_number_of(answer)};
}

/* By so many bytes of the digest, or by all that is left of it; widened where it ends before the part does. */
static struct judgement judge_against(struct judging *judging, size_t most) {
    size_t shown = lines_of(judging->digest, most), end;
    uint64_t answer = ask(judging, shown), line = rudignals_number_of(answer);
    if (rudignals_code_of(answer) == RUDIGNALS_DONE)
        return go_behind(judging, shown);
    if (rudignals_code_of(answer) != RUDIGNALS_NOT_ACCEPTED)
        return refused(judging, answer);
    end = start_of_line((struct bytes){judging->digest.at, shown}, line);
    if (end < shown && is_accepted(judging, end))
        return go_behind(judging, end);
    if (end < shown || shown == judging->digest.length)
        return (struct judgement){NOT_ACCEPTED, judging->lines_before + line, 0, 0};
    return most < MOST_LARGE ? judge_against(judging, most > MOST_LARGE / 2 ? MOST_LARGE : 2 * most) : refused(judging, (uint64_t)RUDIGNALS_LONG_DIGEST << 32);
}

/* With the last part stands all that is left. */
static struct judgement judge_last(struct judging *judging) {
    uint64_t answer = ask(judging, judging->digest.length);
    switch (rudignals_code_of(answer)) {
    case RUDIGNALS_DONE: return go_behind(judging, judging->digest.length);
    case RUDIGNALS_NOT_ACCEPTED: return (struct judgement){NOT_ACCEPTED, judging->lines_before + rudignals_number_of(answer), 0, 0};
    default: return refused(judging, answer);
    }
}

static struct judgement judge_part(struct judging *judging) {
    size_t end;
    if (is_last(judging) && judging->digest.length <= MOST_LARGE)
        return judge_last(judging);
    end = end_by_blanks(judging);
    if (end <= MOST_LARGE && is_accepted(judging, end))
        return go_behind(judging, end);
    return judge_against(judging, judging->part.length < MOST_PART ? MOST_PART : judging->part.length);
}

/* ---- part by part */

/* A part whose digest is longer than the library takes is cut into shorter ones, as far as it can be. */
static struct judgement judge_parts(struct judging *judging, size_t most) {
    struct part before = judging->part;
    enum found found = next_part_of(&judging->work, judging->block, judging->notes, most, &judging->part);
    size_t length = judging->part.length;
    struct judgement judgement;
    if (found != PART)
        return found == NO_PART ? GOOD : refused(judging, (uint64_t)RUDIGNALS_LONG << 32);
    judgement = judge_part(judging);
    if (judgement.acceptance != NOT_JUDGED || judgement.code != RUDIGNALS_LONG_DIGEST || length < 2)
        return judgement;
    judging->part = before;
    return length / 2 < most ? judge_parts(judging, length / 2) : judgement;
}

/* Notes that are refused are not judged, wherever the place is: the rest of them is looked at. */
static struct judgement unless_refused(struct judging *judging, struct judgement judgement) {
    struct part *part = &judging->part;
    bool keep = keeps_damage(judging->block);
    enum found found;
    while ((found = next_part_of(&judging->work, judging->block, judging->notes, MOST_PART, part)) == PART)
        if (!keep && judgement.code != RUDIGNALS_TEXT && is_damaged(part->bytes, part->length))
            judgement = (struct judgement){NOT_JUDGED, 0, RUDIGNALS_TEXT, part->bytes_before + first_damage(part->bytes, part->length, 0)};
    return found == UNCUT ? refused(judging, (uint64_t)RUDIGNALS_LONG << 32) : judgement;
}

/* What is left of the digest after the last part cannot be right. */
struct judgement judge(struct bytes block, struct bytes notes, struct bytes digest) {
    struct judging judging = {.block = block, .notes = notes, .digest = digest};
    struct judgement judgement;
    if (notes.length == 0)
        judgement = judge_part(&judging);
    else
        do
            judgement = judge_parts(&judging, MOST_PART);
        while (judgement.acceptance == ACCEPTED && !is_last(&judging));
    if (judgement.acceptance != ACCEPTED)
        judgement = unless_refused(&judging, judgement);
    else if (judging.digest.length > 0)
        judgement = (struct judgement){NOT_ACCEPTED, judging.lines_before, 0, 0};
    free_work(&judging.work);
    return judgement;
}
