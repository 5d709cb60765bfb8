/* A file written whole and in its place: beside it first, then renamed. */
#define _XOPEN_SOURCE 700
#include "whole.h"

#include <errno.h>
#include <fcntl.h>
#include <signal.h>
#include <stdio.h>
#include <stdlib.h>
#include <string.h>
#include <sys/stat.h>
#include <unistd.h>

/* A name with its folder; without one it is in the folder where we are. */
static size_t folder_length(const char *name) {
    const char *slash = strrchr(name, '/');
    return slash == NULL ? 0 : (size_t)(slash - name) + 1;
}

static bool name_in(struct buffer *path, const char *beside, const char *name, size_t length) {
    path->length = 0;
    return (*name == '/' || buffer_add(path, beside, folder_length(beside))) && buffer_add(path, name, length) && buffer_add(path, "", 1);
}

/* What a link names, in the place of its own name. */
static bool read_link(struct buffer *path) {
    struct buffer named = {0}, found = {0};
    ssize_t got = 0;
    bool well = false;
    do {
        if (!buffer_room(&named, (size_t)got + 256))
            break;
        got = readlink((char *)path->bytes, (char *)named.bytes, named.room);
    } while (got > 0 && (size_t)got == named.room);
    if (got > 0)
        well = name_in(&found, (char *)path->bytes, (char *)named.bytes, (size_t)got);
    if (well) {
        buffer_free(path);
        *path = found;
        found = (struct buffer){0};
    }
    buffer_free(&named);
    buffer_free(&found);
    return well;
}

enum { MOST_LINKS = 40 };

/* The file that a name leads to, over links, and what is known of it. It need not be there. */
static bool follow_links(struct buffer *path, const char *name, struct stat *about, bool *there) {
    int links;
    if (!buffer_add(path, name, strlen(name) + 1))
        return false;
    for (links = 0; links < MOST_LINKS; links++) {
        *there = lstat((char *)path->bytes, about) == 0;
        if (!*there)
            return errno == ENOENT;
        if (!S_ISLNK(about->st_mode))
            return true;
        if (!read_link(path))
            return false;
    }
    errno = ELOOP;
    return false;
}

bool write_all(int file, const void *bytes, size_t length) {
    const char *next = bytes;
    ssize_t put;
    while (length > 0) {
        put = write(file, next, length);
        if (put < 0 && errno != EINTR)
            return false;
        if (put > 0)
            next += put, length -= (size_t)put;
    }
    return true;
}

/* Some file systems cannot, and say so: what stands there is as safe as it can be. */
static bool sync_file(int file) { return fsync(file) == 0 || errno == EINVAL || errno == ENOTSUP; }

static bool close_well(int file, bool well) {
    int reason = errno;
    if (close(file) != 0 && well)
        return false;
    errno = reason;
    return well;
}

static mode_t mode_of_new(void) {
    mode_t mask = umask(0);
    umask(mask);
    return 0666 & ~mask;
}

/* The owner and the group stay where the system lets us keep them; where not, the file is ours, as a new one is. */
static bool put_like(int file, const struct stat *old) {
    struct stat now;
    if (old == NULL)
        return fchmod(file, mode_of_new()) == 0;
    if (fstat(file, &now) != 0)
        return false;
    if ((now.st_uid != old->st_uid || now.st_gid != old->st_gid) && fchown(file, old->st_uid, old->st_gid) != 0 && errno != EPERM)
        return false;
    return fchmod(file, old->st_mode & 07777) == 0;
}

/* A folder that we may write in but not read cannot be opened; then its entry is as safe as the system makes it. */
static bool sync_folder(const char *path) {
    struct buffer folder = {0};
    size_t length = folder_length(path);
    bool well = length > 0 ? buffer_add(&folder, path, length) && buffer_add(&folder, "", 1) : buffer_add(&folder, ".", 2);
    int file = well ? open((char *)folder.bytes, O_RDONLY | O_CLOEXEC) : -1;
    if (file >= 0)
        well = close_well(file, sync_file(file));
    else
        well = well && errno == EACCES;
    buffer_free(&folder);
    return well;
}

/* ---- who ends the command meanwhile leaves nothing beside */

static const int ENDING[] = {SIGINT, SIGTERM, SIGHUP, SIGQUIT};
enum { ENDINGS = sizeof ENDING / sizeof ENDING[0] };
static struct sigaction before[ENDINGS];
static char *volatile left_behind = NULL;

static void clean_up(int signal_number) {
    if (left_behind != NULL)
        unlink(left_behind);
    signal(signal_number, SIG_DFL);
    raise(signal_number);
}

/* A signal that is ignored stays so: the command was started to outlive its terminal, say. */
static void guard(char *path) {
    struct sigaction action;
    size_t i;
    memset(&action, 0, sizeof action);
    action.sa_handler = clean_up;
    sigemptyset(&action.sa_mask);
    left_behind = path;
    for (i = 0; i < ENDINGS; i++)
        if (sigaction(ENDING[i], NULL, &before[i]) == 0 && before[i].sa_handler == SIG_DFL)
            sigaction(ENDING[i], &action, NULL);
}

static void unguard(void) {
    size_t i;
    for (i = 0; i < ENDINGS; i++)
        sigaction(ENDING[i], &before[i], NULL);
    left_behind = NULL;
}

/* A file beside and the guard that removes it come as one: none of these signals is taken between the two. */
static int guarded_file(char *path) {
    sigset_t ending, mask;
    size_t i;
    int file, reason;
    sigemptyset(&ending);
    for (i = 0; i < ENDINGS; i++)
        sigaddset(&ending, ENDING[i]);
    if ((errno = pthread_sigmask(SIG_BLOCK, &ending, &mask)) != 0)
        return -1;
    file = mkstemp(path);
    reason = errno;
    if (file >= 0)
        guard(path);
    pthread_sigmask(SIG_SETMASK, &mask, NULL);
    errno = reason;
    return file;
}

/* ---- the file */

/* The name beside is short, so that a long one in that place does not matter. */
static bool begin_beside(struct whole *whole, const struct stat *old) {
    static const char BESIDE[] = ".rudignals-XXXXXX";
    if (!name_in(&whole->beside, (char *)whole->path.bytes, BESIDE, sizeof BESIDE - 1))
        return false;
    whole->file = guarded_file((char *)whole->beside.bytes);
    if (whole->file < 0) {
        buffer_free(&whole->beside);
        return false;
    }
    return put_like(whole->file, old);
}

/* A file that may not be written to is not replaced either. */
static bool begin(struct whole *whole, const char *name) {
    struct stat about;
    bool there;
    if (stat(name, &about) == 0 && !S_ISREG(about.st_mode)) {
        whole->file = open(name, O_WRONLY | O_CLOEXEC);
        return whole->file >= 0;
    }
    if (!follow_links(&whole->path, name, &about, &there))
        return false;
    return (!there || access((char *)whole->path.bytes, W_OK) == 0) && begin_beside(whole, there ? &about : NULL);
}

bool begin_whole(struct whole *whole, const char *name) {
    *whole = (struct whole){.file = -1};
    return begin(whole, name) || end_whole(whole, false);
}

bool add_whole(struct whole *whole, const void *bytes, size_t length) { return write_all(whole->file, bytes, length); }

static bool put_in_place(struct whole *whole, bool well) {
    const char *beside = (char *)whole->beside.bytes, *path = (char *)whole->path.bytes;
    int reason;
    well = close_well(whole->file, well && sync_file(whole->file)) && rename(beside, path) == 0;
    if (!well) {
        reason = errno;
        unlink(beside);
        errno = reason;
    }
    unguard();
    return well && sync_folder(path);
}

/* Where it fails before, errno is that of the failure. */
bool end_whole(struct whole *whole, bool well) {
    int reason;
    if (whole->beside.length > 0)
        well = put_in_place(whole, well);
    else if (whole->file >= 0)
        well = close_well(whole->file, well);
    reason = errno;
    buffer_free(&whole->path);
    buffer_free(&whole->beside);
    errno = reason;
    return well;
}

bool write_whole(const char *name, const void *bytes, size_t length) {
    struct whole whole;
    return begin_whole(&whole, name) && end_whole(&whole, add_whole(&whole, bytes, length));
}

/* The name is taken first, by an empty file, so that nobody else's can get it. */
bool write_new(const char *name, const void *bytes, size_t length) {
    int file = open(name, O_WRONLY | O_CREAT | O_EXCL | O_CLOEXEC, 0666), reason;
    bool well = file >= 0 && close_well(file, true) && write_whole(name, bytes, length);
    if (file >= 0 && !well) {
        reason = errno;
        unlink(name);
        errno = reason;
    }
    return well;
}
