#define _POSIX_C_SOURCE 200809L
#include "store.h"

#include <errno.h>
#include <fcntl.h>
#include <stdio.h>
#include <stdlib.h>
#include <string.h>
#include <sys/stat.h>
#include <time.h>
#include <unistd.h>

#include "basics.h"

enum { PATH_BYTES = 4096 };

struct path {
    char text[PATH_BYTES];
};

static struct path path_of(const char *folder, const char *name, const char *ending) {
    struct path path;
    int length = snprintf(path.text, sizeof path.text, "%s/%s%s", folder, name, ending);
    if (length < 0 || length >= PATH_BYTES) fail("the path of %s is too long", name);
    return path;
}

/* Opens a file, or ends the process. */
static int open_for(struct path path, int flags) {
    int file = open(path.text, flags | O_CLOEXEC, 0600);
    if (file < 0) fail("%s cannot be opened: %s", path.text, strerror(errno));
    return file;
}

static void sync_and_close(int file, const char *name) {
    /* a file that did not reach the disk counts as never written */
    if (fsync(file) != 0 || close(file) != 0) fail("%s cannot be brought to the disk: %s", name, strerror(errno));
}

/* A new, renamed or removed name is on the disk when its folder is. */
static void sync_folder(const char *folder) {
    sync_and_close(open_for(path_of(folder, "", ""), O_RDONLY | O_DIRECTORY), folder);
}

void store_folder(const char *folder) {
    if (mkdir(folder, 0700) != 0 && errno != EEXIST) fail("%s cannot be made: %s", folder, strerror(errno));
    sync_folder(path_of(folder, "..", "").text);
}

void store_wait(const char *folder) {
    int file = open_for(path_of(folder, "lock", ""), O_RDWR | O_CREAT);
    struct flock whole = {.l_type = F_WRLCK, .l_whence = SEEK_SET};
    while (fcntl(file, F_SETLKW, &whole) != 0) {
        if (errno != EINTR) fail("%s cannot be locked: %s", folder, strerror(errno));
    }
}

void store_lock(const char *folder) {
    /* the file stays open: the system lets go of the lock when the process ends */
    int file = open_for(path_of(folder, "lock", ""), O_RDWR | O_CREAT);
    struct flock whole = {.l_type = F_WRLCK, .l_whence = SEEK_SET};
    struct timespec pause = {.tv_nsec = 10 * 1000 * 1000};
    /* who waits for ever may wait in a ring: its holder for a peer, and that one for another lock. Not all for as long */
    for (int left = 50 + getpid() % 100; fcntl(file, F_SETLK, &whole) != 0; left--) {
        if (errno != EAGAIN && errno != EACCES) fail("%s cannot be locked: %s", folder, strerror(errno));
        if (left == 0) exit(PEER_LOST);
        nanosleep(&pause, NULL);
    }
    /* a process that was killed may have renamed a file and not synced: before anybody reads it, that is made up for */
    sync_folder(folder);
}

int store_load(const char *folder, const char *name, void *bytes, size_t count) {
    struct path path = path_of(folder, name, "");
    int file = open(path.text, O_RDONLY | O_CLOEXEC);
    if (file < 0 && errno == ENOENT) return 0;
    if (file < 0) fail("%s cannot be opened: %s", path.text, strerror(errno));
    size_t have = 0;
    ssize_t got;
    while ((got = read(file, (uint8_t *)bytes + have, count - have)) > 0) have += (size_t)got;
    uint8_t more;
    if (got < 0 || have != count || read(file, &more, 1) != 0) fail("%s is damaged", path.text);
    close(file);
    return 1;
}

static void write_at(int file, const char *name, size_t at, const void *bytes, size_t count) {
    size_t done = 0;
    while (done < count) {
        ssize_t put = pwrite(file, (const uint8_t *)bytes + done, count - done, (off_t)(at + done));
        if (put < 0 && errno != EINTR) fail("%s cannot be written: %s", name, strerror(errno));
        if (put > 0) done += (size_t)put;
    }
}

void store_save(const char *folder, const char *name, const void *bytes, size_t count) {
    struct path path = path_of(folder, name, ""), next = path_of(folder, name, ".next");
    int file = open_for(next, O_WRONLY | O_CREAT | O_TRUNC);
    write_at(file, next.text, 0, bytes, count);
    sync_and_close(file, next.text);
    if (rename(next.text, path.text) != 0) fail("%s cannot be replaced: %s", path.text, strerror(errno));
    sync_folder(folder);
}

void store_patch(const char *folder, const char *name, size_t at, const void *bytes, size_t count) {
    int file = open_for(path_of(folder, name, ""), O_WRONLY);
    write_at(file, name, at, bytes, count);
    sync_and_close(file, name);
}

void store_remove(const char *folder, const char *name) {
    if (unlink(path_of(folder, name, "").text) != 0 && errno != ENOENT) fail("%s cannot be removed", name);
    sync_folder(folder);
}
