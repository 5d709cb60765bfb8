/* A night put in its place whole. Its files are written into a folder beside the place, each synced; then the two folders change their names
 * in one step, and the old night is removed. Whatever breaks that off, a reader finds the old night or the new one, never a mixture and never
 * nothing; what is left beside it is removed by the next run. */
#define _GNU_SOURCE /* renameat2 */
#include "night.h"

#include "say.h"

#include <dirent.h>
#include <errno.h>
#include <fcntl.h>
#include <stdio.h>
#include <stdlib.h>
#include <string.h>
#include <sys/file.h>
#include <sys/stat.h>
#include <unistd.h>

/* A folder in the making has a name that begins so. */
static const char MAKING[] = ".night-";

static char *path_of(const char *folder, const char *name) {
    struct buffer path = {0};
    if (buffer_print(&path, "%s/%s", folder, name) && buffer_add(&path, "", 1))
        return (char *)path.bytes;
    buffer_free(&path);
    return NULL;
}

static bool is_ours(const char *name) {
    size_t i;
    for (i = 0; i < OUTPUTS; i++)
        if (strcmp(name, OUTPUT_NAMES[i]) == 0)
            return true;
    return strcmp(name, ".") == 0 || strcmp(name, "..") == 0;
}

/* Removes a folder with a night's files. A stranger's file stays, and so does the folder then. */
static bool remove_night(const char *folder) {
    char *path;
    size_t i;
    for (i = 0; i < OUTPUTS; i++) {
        path = path_of(folder, OUTPUT_NAMES[i]);
        if (path != NULL)
            unlink(path);
        free(path);
    }
    return rmdir(folder) == 0;
}

/* Is a folder one that holds nothing but a night? */
static bool is_night(const char *folder, bool *there) {
    DIR *rows = opendir(folder);
    const struct dirent *row;
    bool ours = true;
    *there = rows != NULL || errno != ENOENT;
    if (rows == NULL)
        return false;
    while ((row = readdir(rows)) != NULL)
        ours = ours && is_ours(row->d_name);
    closedir(rows);
    return ours;
}

/* ---- the folder of nights */

static void clean_up(const char *folder) {
    DIR *rows = opendir(folder);
    const struct dirent *row;
    char *path;
    while (rows != NULL && (row = readdir(rows)) != NULL)
        if (strncmp(row->d_name, MAKING, strlen(MAKING)) == 0 && (path = path_of(folder, row->d_name)) != NULL) {
            remove_night(path);
            free(path);
        }
    if (rows != NULL)
        closedir(rows);
}

bool open_nights(struct nights *nights, const char *folder) {
    nights->folder = folder;
    nights->lock = -1;
    if (mkdir(folder, 0777) != 0 && errno != EEXIST) {
        say_failure(folder, errno);
        return false;
    }
    nights->lock = open(folder, O_RDONLY | O_DIRECTORY | O_CLOEXEC);
    if (nights->lock < 0) {
        say_failure(folder, errno);
        return false;
    }
    if (flock(nights->lock, LOCK_EX | LOCK_NB) != 0) {
        if (errno == EWOULDBLOCK)
            say("%s: another run makes a night there", folder);
        else
            say_failure(folder, errno);
        close_nights(nights);
        return false;
    }
    clean_up(folder);
    return true;
}

void close_nights(struct nights *nights) {
    if (nights->lock >= 0)
        close(nights->lock);
    nights->lock = -1;
}

/* ---- a night */

static bool write_bytes(int file, const uint8_t *bytes, size_t length) {
    ssize_t put;
    while (length > 0) {
        put = write(file, bytes, length);
        if (put < 0 && errno != EINTR)
            return false;
        if (put > 0)
            bytes += put, length -= (size_t)put;
    }
    return true;
}

static bool write_synced(const char *folder, const char *name, const struct buffer *bytes) {
    char *path = path_of(folder, name);
    int file = path == NULL ? -1 : open(path, O_WRONLY | O_CREAT | O_EXCL | O_CLOEXEC, 0666), reason;
    bool well = file >= 0 && write_bytes(file, bytes->bytes, bytes->length) && fsync(file) == 0;
    reason = errno;
    if (file >= 0 && close(file) != 0 && well) {
        reason = errno;
        well = false;
    }
    free(path);
    errno = reason;
    return well;
}

static bool sync_folder(const char *folder) {
    int opened = open(folder, O_RDONLY | O_DIRECTORY | O_CLOEXEC), reason;
    bool well = opened >= 0 && fsync(opened) == 0;
    reason = errno;
    if (opened >= 0)
        close(opened);
    errno = reason;
    return well;
}

static bool write_outputs(const char *folder, const struct night *night) {
    size_t i;
    for (i = 0; i < OUTPUTS; i++)
        if (!write_synced(folder, OUTPUT_NAMES[i], &night->output[i]))
            return false;
    return sync_folder(folder);
}

/* The mode that a new folder has, or that of the one before. */
static mode_t mode_for(const char *place) {
    struct stat about;
    mode_t mask = umask(0);
    umask(mask);
    return stat(place, &about) == 0 ? about.st_mode & 07777 : 0777 & ~mask;
}

/* In one step, whether there was a night or not. */
static bool exchange(const char *made, const char *place, bool there) {
    if (!there)
        return renameat2(AT_FDCWD, made, AT_FDCWD, place, RENAME_NOREPLACE) == 0 || (errno == EINVAL && rename(made, place) == 0);
    return renameat2(AT_FDCWD, made, AT_FDCWD, place, RENAME_EXCHANGE) == 0;
}

static bool put_in_place(const struct nights *nights, const struct night *night, char *made, const char *place) {
    bool there, ours = is_night(place, &there);
    if (there && !ours) {
        say("%s: is there and is no night; it is not written over", place);
        return false;
    }
    if (mkdtemp(made) == NULL) {
        say_failure(nights->folder, errno);
        return false;
    }
    if (chmod(made, mode_for(place)) != 0 || !write_outputs(made, night) || !exchange(made, place, there)) {
        if (errno == EINVAL && there)
            say("%s: this file system cannot exchange two folders in one step; put --to on another", place);
        else
            say_failure(place, errno);
        remove_night(made);
        return false;
    }
    if (there)
        remove_night(made);
    if (sync_folder(nights->folder))
        return true;
    say_failure(nights->folder, errno);
    return false;
}

bool put_night(const struct nights *nights, const struct night *night) {
    struct buffer made = {0};
    char *place = path_of(nights->folder, night->label);
    bool well = place != NULL && buffer_print(&made, "%s/%sXXXXXX", nights->folder, MAKING) && buffer_add(&made, "", 1);
    if (well)
        well = put_in_place(nights, night, (char *)made.bytes, place);
    else
        say("%s: no memory for its name", night->label);
    buffer_free(&made);
    free(place);
    return well;
}
