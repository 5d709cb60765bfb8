/* Pairs read and judged, several at once. The library keeps no state, and a pair's verdict depends on its two files alone; so the threads
 * share nothing but the number of the next pair. */
#define _POSIX_C_SOURCE 200809L
#include "audit.h"

#include <errno.h>
#include <fcntl.h>
#include <pthread.h>
#include <stdlib.h>
#include <string.h>
#include <sys/stat.h>
#include <unistd.h>

/* ---- a pair */

static bool read_open(int file, struct buffer *text) {
    struct stat about;
    ssize_t got;
    if (fstat(file, &about) != 0)
        return false;
    if (!S_ISREG(about.st_mode)) {
        errno = S_ISDIR(about.st_mode) ? EISDIR : EINVAL;
        return false;
    }
    if (about.st_size > 0 && !buffer_room(text, (size_t)about.st_size + 1))
        return false;
    do {
        if (!buffer_room(text, 65536))
            return false;
        got = read(file, text->bytes + text->length, text->room - text->length);
        if (got > 0)
            text->length += (size_t)got;
    } while (got > 0 || (got < 0 && errno == EINTR));
    return got == 0;
}

/* Opened so that a pipe nobody writes to is not waited for. */
static bool read_text(const char *name, struct buffer *text) {
    int file = open(name, O_RDONLY | O_NONBLOCK | O_CLOEXEC), reason;
    bool well = file >= 0 && read_open(file, text);
    reason = errno;
    if (file >= 0)
        close(file);
    errno = reason;
    return well;
}

static struct finding unread(const char *whose, int reason) {
    struct buffer why = {0};
    struct finding finding;
    const char *words = reason == EINVAL ? "is no file" : strerror(reason);
    if (buffer_print(&why, "the %s cannot be read: %s", whose, words) && buffer_add(&why, "", 1))
        finding = not_judged((const char *)why.bytes);
    else
        finding = not_judged("a file cannot be read");
    buffer_free(&why);
    return finding;
}

static struct finding verdict_alone(enum verdict verdict) {
    struct finding finding = not_judged("");
    free(finding.why);
    finding.why = NULL;
    finding.verdict = verdict;
    return finding;
}

static struct bytes bytes_of(const struct buffer *text) { return (struct bytes){text->bytes, text->length}; }

/* A file that is named and not there is one that is missing; what cannot be read for another reason cannot be judged. */
static struct finding judge_files(const struct audit *audit, struct audited *row) {
    bool notes = row->pair->notes != NULL, digest = row->pair->digest != NULL;
    int reason = 0;
    if (notes && !read_text(row->pair->notes, &row->notes)) {
        if (errno != ENOENT)
            return unread("file of notes", errno);
        reason = ENOENT;
        notes = false;
    }
    if (digest && !read_text(row->pair->digest, &row->digest)) {
        if (errno != ENOENT)
            return unread("digest", errno);
        if (!notes)
            return unread(reason == ENOENT ? "pair" : "digest", ENOENT);
        digest = false;
    }
    if (!notes || !digest)
        return verdict_alone(notes ? NO_DIGEST : NO_NOTES);
    return find(&audit->terms, bytes_of(&row->notes), bytes_of(&row->digest));
}

static void judge_row(const struct audit *audit, struct audited *row) {
    row->finding = row->pair->why != NULL ? not_judged(row->pair->why) : judge_files(audit, row);
    row->read = row->notes.length + row->digest.length;
}

static void drop_texts(struct audited *row) {
    buffer_free(&row->notes);
    buffer_free(&row->digest);
}

/* ---- threads */

/* No thread begins a pair that is so many after the one to be handed over: the texts of a few are in memory, not of all. */
enum { MOST_AHEAD = 64, MOST_JOBS = 64 };

struct work {
    struct audit *audit;
    size_t next;  /* the number of the next pair that nobody has */
    size_t taken; /* so many have been handed over */
    pthread_mutex_t lock;
    pthread_cond_t ended, room;
};

static bool next_row(struct work *work, size_t *row) {
    bool more;
    pthread_mutex_lock(&work->lock);
    while (work->next < work->audit->pairs.length && work->next >= work->taken + MOST_AHEAD)
        pthread_cond_wait(&work->room, &work->lock);
    more = work->next < work->audit->pairs.length;
    *row = work->next;
    work->next += more;
    pthread_mutex_unlock(&work->lock);
    return more;
}

static void end_row(struct work *work, struct audited *row) {
    pthread_mutex_lock(&work->lock);
    row->ended = true;
    pthread_cond_signal(&work->ended);
    pthread_mutex_unlock(&work->lock);
}

static void *judge_some(void *with) {
    struct work *work = with;
    struct audited *row;
    size_t i;
    while (next_row(work, &i)) {
        row = &work->audit->rows[i];
        judge_row(work->audit, row);
        if (!work->audit->keep_texts || row->finding.verdict == CARRIED)
            drop_texts(row);
        end_row(work, row);
    }
    return NULL;
}

static void await_row(struct work *work, const struct audited *row) {
    pthread_mutex_lock(&work->lock);
    while (!row->ended)
        pthread_cond_wait(&work->ended, &work->lock);
    pthread_mutex_unlock(&work->lock);
}

static void row_taken(struct work *work) {
    pthread_mutex_lock(&work->lock);
    work->taken++;
    pthread_cond_broadcast(&work->room);
    pthread_mutex_unlock(&work->lock);
}

static void take_rows(struct work *work, void (*take)(struct audit *audit, struct audited *row, void *with), void *with) {
    struct audited *row;
    size_t i;
    for (i = 0; i < work->audit->pairs.length; i++) {
        row = &work->audit->rows[i];
        await_row(work, row);
        work->audit->counts[row->finding.verdict]++;
        take(work->audit, row, with);
        drop_texts(row);
        free_finding(&row->finding);
        row_taken(work);
    }
}

/* Without a single thread there is nobody to do the work. */
bool judge_pairs(struct audit *audit, void (*take)(struct audit *audit, struct audited *row, void *with), void *with) {
    struct work work = {audit, 0, 0, PTHREAD_MUTEX_INITIALIZER, PTHREAD_COND_INITIALIZER, PTHREAD_COND_INITIALIZER};
    pthread_t threads[MOST_JOBS];
    unsigned begun = 0, wanted = audit->jobs < MOST_JOBS ? audit->jobs : MOST_JOBS;
    size_t i;
    int reason = 0;
    audit->rows = calloc(audit->pairs.length + 1, sizeof *audit->rows);
    if (audit->rows == NULL)
        return false;
    for (i = 0; i < audit->pairs.length; i++)
        audit->rows[i].pair = &audit->pairs.rows[i];
    while (begun < wanted && (reason = pthread_create(&threads[begun], NULL, judge_some, &work)) == 0)
        begun++;
    if (begun > 0)
        take_rows(&work, take, with);
    for (i = 0; i < begun; i++)
        pthread_join(threads[i], NULL);
    free(audit->rows);
    audit->rows = NULL;
    errno = reason;
    return begun > 0;
}
