/* Kills a process at a chosen moment: a library for LD_PRELOAD, for any program whose second argument is its role.
 *
 * It stands before the functions by which state leaves a process, and raises SIGKILL just before one of them.
 *   KILL_ROLE   the role whose process is killed: the word behind the program's name on its command line
 *   KILL_AT     before which of its calls, from 1
 *   KILL_AFTER  or, after so many microseconds, wherever it is then
 *   KILL_MARK   a file that is made at the kill (with KILL_AFTER: when the clock starts), so that there is one kill
 *   KILL_TIMES  how many processes of that role are killed, one after another, where that is more than one; the further
 *               marks are KILL_MARK.2 and so on
 *   KILL_LOG    whatever a process of any role sends by its standard input is appended to KILL_LOG.ROLE
 * Every function goes to the kernel by itself, so that none counts another's calls. What the C library writes from its
 * own buffers (printf, fopen) is not seen: a program under this test puts its state and its answer out by the calls
 * below.
 */
#define _GNU_SOURCE
#include <fcntl.h>
#include <signal.h>
#include <stdarg.h>
#include <stdatomic.h>
#include <stdio.h>
#include <stdlib.h>
#include <string.h>
#include <sys/socket.h>
#include <sys/stat.h>
#include <sys/syscall.h>
#include <sys/uio.h>
#include <time.h>
#include <unistd.h>

static char role[64];
static const char *mark;
static long at, times = 1;
static atomic_long calls;
static int log_file = -1;

/* Whether this process is to be killed: a mark was not yet made, and now is. */
static int claim(void) {
    char path[4096];
    for (long i = 1; i <= times; i++) {
        snprintf(path, sizeof path, i == 1 ? "%s" : "%s.%ld", mark, i);
        long file = syscall(SYS_openat, AT_FDCWD, path, O_CREAT | O_EXCL | O_WRONLY | O_CLOEXEC, 0600);
        if (file >= 0) return syscall(SYS_close, file) == 0;
    }
    return 0;
}

/* The second word of the command line. */
static void find_role(void) {
    char line[512] = {0};
    long file = syscall(SYS_openat, AT_FDCWD, "/proc/self/cmdline", O_RDONLY | O_CLOEXEC, 0);
    long got = file < 0 ? 0 : syscall(SYS_read, file, line, sizeof line - 1);
    if (file >= 0) syscall(SYS_close, file);
    size_t first = strlen(line) + 1;
    if (got > 0 && first < (size_t)got) snprintf(role, sizeof role, "%s", line + first);
}

static void start_clock(long microseconds) {
    timer_t timer;
    struct sigevent event = {.sigev_notify = SIGEV_SIGNAL, .sigev_signo = SIGKILL};
    struct itimerspec when = {.it_value = {microseconds / 1000000, microseconds % 1000000 * 1000 + 1}};
    if (timer_create(CLOCK_MONOTONIC, &event, &timer) != 0 || timer_settime(timer, 0, &when, NULL) != 0) abort();
}

static void open_log(const char *name) {
    char path[4096];
    if (name == NULL || role[0] == 0 || strchr(role, '/') != NULL) return;
    snprintf(path, sizeof path, "%s.%s", name, role);
    log_file = (int)syscall(SYS_openat, AT_FDCWD, path, O_CREAT | O_APPEND | O_WRONLY | O_CLOEXEC, 0600);
}

__attribute__((constructor)) static void begin(void) {
    const char *whose = getenv("KILL_ROLE"), *number = getenv("KILL_AT"), *after = getenv("KILL_AFTER");
    mark = getenv("KILL_MARK");
    find_role();
    open_log(getenv("KILL_LOG"));
    if (whose == NULL || mark == NULL || strcmp(whose, role) != 0) return;
    if (getenv("KILL_TIMES") != NULL) times = atol(getenv("KILL_TIMES"));
    if (number != NULL) at = atol(number);
    if (after != NULL && claim()) start_clock(atol(after));
}

static void count(void) {
    if (at > 0 && atomic_fetch_add(&calls, 1) + 1 == at && claim()) raise(SIGKILL);
}

/* Whether a descriptor is standard input or a copy of that socket: safe Rust can send by a copy alone. */
static int is_input(int file) {
    struct stat one, input;
    if (file == STDIN_FILENO) return 1;
    if (fstat(file, &one) != 0 || fstat(STDIN_FILENO, &input) != 0) return 0;
    return S_ISSOCK(one.st_mode) && one.st_dev == input.st_dev && one.st_ino == input.st_ino;
}

/* Counts a call that sends, and notes what it sends. */
static void count_bytes(int file, const void *bytes, size_t length) {
    count();
    if (log_file >= 0 && is_input(file) && syscall(SYS_write, log_file, bytes, length) < 0) abort();
}

static void count_parts(int file, const struct iovec *parts, size_t number) {
    count();
    if (log_file >= 0 && is_input(file) && syscall(SYS_writev, log_file, parts, number) < 0) abort();
}

ssize_t write(int file, const void *bytes, size_t length) {
    count_bytes(file, bytes, length);
    return syscall(SYS_write, file, bytes, length);
}

ssize_t writev(int file, const struct iovec *parts, int number) {
    count_parts(file, parts, (size_t)number);
    return syscall(SYS_writev, file, parts, number);
}

ssize_t sendto(int file, const void *bytes, size_t length, int flags, __CONST_SOCKADDR_ARG to, socklen_t size) {
    count_bytes(file, bytes, length);
    return syscall(SYS_sendto, file, bytes, length, flags, to.__sockaddr__, size);
}

ssize_t send(int file, const void *bytes, size_t length, int flags) {
    count_bytes(file, bytes, length);
    return syscall(SYS_sendto, file, bytes, length, flags, NULL, 0);
}

ssize_t sendmsg(int file, const struct msghdr *message, int flags) {
    count_parts(file, message->msg_iov, message->msg_iovlen);
    return syscall(SYS_sendmsg, file, message, flags);
}

int shutdown(int file, int how) {
    count();
    return (int)syscall(SYS_shutdown, file, how);
}

ssize_t pwrite(int file, const void *bytes, size_t length, off_t from) {
    count();
    return syscall(SYS_pwrite64, file, bytes, length, from);
}

ssize_t pwrite64(int file, const void *bytes, size_t length, off64_t from) {
    count();
    return syscall(SYS_pwrite64, file, bytes, length, from);
}

int ftruncate(int file, off_t length) {
    count();
    return (int)syscall(SYS_ftruncate, file, length);
}

int ftruncate64(int file, off64_t length) {
    count();
    return (int)syscall(SYS_ftruncate, file, length);
}

int fsync(int file) {
    count();
    return (int)syscall(SYS_fsync, file);
}

int fdatasync(int file) {
    count();
    return (int)syscall(SYS_fdatasync, file);
}

int rename(const char *from, const char *to) {
    count();
    return (int)syscall(SYS_rename, from, to);
}

int renameat(int from_folder, const char *from, int to_folder, const char *to) {
    count();
    return (int)syscall(SYS_renameat, from_folder, from, to_folder, to);
}

int link(const char *from, const char *to) {
    count();
    return (int)syscall(SYS_link, from, to);
}

int unlink(const char *path) {
    count();
    return (int)syscall(SYS_unlink, path);
}

int mkdir(const char *path, mode_t mode) {
    count();
    return (int)syscall(SYS_mkdir, path, mode);
}

/* Opening counts where it can make or empty a file. */
static int opened(int folder, const char *path, int flags, va_list more) {
    int makes = (flags & O_CREAT) != 0 || (flags & O_TMPFILE) == O_TMPFILE;
    mode_t mode = makes ? va_arg(more, mode_t) : 0;
    if (makes || (flags & O_TRUNC) != 0) count();
    return (int)syscall(SYS_openat, folder, path, flags, mode);
}

#define OPENING(folder, path, flags)                    \
    va_list more;                                       \
    va_start(more, flags);                              \
    int file = opened(folder, path, flags, more);       \
    va_end(more);                                       \
    return file

int open(const char *path, int flags, ...) {
    OPENING(AT_FDCWD, path, flags);
}

int open64(const char *path, int flags, ...) {
    OPENING(AT_FDCWD, path, flags);
}

int openat(int folder, const char *path, int flags, ...) {
    OPENING(folder, path, flags);
}

int openat64(int folder, const char *path, int flags, ...) {
    OPENING(folder, path, flags);
}
