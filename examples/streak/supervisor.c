#define _POSIX_C_SOURCE 200809L
#include "supervisor.h"

#include <errno.h>
#include <fcntl.h>
#include <stdio.h>
#include <stdlib.h>
#include <string.h>
#include <sys/socket.h>
#include <sys/wait.h>
#include <unistd.h>

#include "basics.h"
#include "dealer.h"
#include "store.h"

enum { STARTS = 10 }; /* of the dealer, and of both ends */

/* A process and the pipe from its standard output. */
struct child {
    pid_t process;
    int output;
};

/* A child must have none but its own descriptors: while anyone holds a socket open its peer waits. */
static void close_at_start(int file) {
    if (fcntl(file, F_SETFD, FD_CLOEXEC) != 0) fail("a descriptor cannot be set up: %s", strerror(errno));
}

/* Gives the child `file` under the number of one of its standard descriptors, which stays open in it. */
static int becomes(int file, int standard) {
    return dup2(file, standard) >= 0 && fcntl(standard, F_SETFD, 0) == 0;
}

/* Starts this program in another role; its standard input is `input`, where that is not negative. */
static struct child start(int input, char *const arguments[]) {
    int ends[2];
    if (pipe(ends) != 0) fail("no pipe can be made: %s", strerror(errno));
    close_at_start(ends[0]);
    close_at_start(ends[1]);
    struct child child = {.process = fork(), .output = ends[0]};
    if (child.process < 0) fail("no process can be started: %s", strerror(errno));
    if (child.process == 0) {
        if ((input < 0 || becomes(input, STDIN_FILENO)) && becomes(ends[1], STDOUT_FILENO)) {
            execv("/proc/self/exe", arguments);
        }
        _exit(FAILED);
    }
    close(ends[1]);
    return child;
}

/* How a child ended: its status, or PEER_LOST where a signal killed it, since another start mends both. `answer` gets
 * what it printed. */
static int outcome(struct child child, const char *name, char *answer, size_t room) {
    int status = 0;
    while (waitpid(child.process, &status, 0) < 0 && errno == EINTR) continue;
    ssize_t got = read(child.output, answer, room - 1);
    answer[got > 0 ? got : 0] = 0;
    close(child.output);
    if (WIFEXITED(status)) return WEXITSTATUS(status);
    fprintf(stderr, "streak: %s was killed by signal %d\n", name, WTERMSIG(status));
    return PEER_LOST;
}

static void have_tapes(const char *folder) {
    char answer[16];
    char *arguments[] = {"streak", "deal", (char *)folder, "4", NULL};
    for (int i = 0; needs_dealing(folder); i++) {
        if (i == STARTS) fail("the dealer was started %d times", STARTS);
        int how = outcome(start(-1, arguments), "dealer", answer, sizeof answer);
        if (how != ANSWERED && how != PEER_LOST) exit(FAILED);
    }
}

/* Runs both ends over a new pair of sockets. */
static int run_ends(char *const left[], char *const right[], char answers[2][16]) {
    int sockets[2];
    if (socketpair(AF_UNIX, SOCK_STREAM, 0, sockets) != 0) fail("no sockets can be made: %s", strerror(errno));
    close_at_start(sockets[0]);
    close_at_start(sockets[1]);
    struct child first = start(sockets[0], left), second = start(sockets[1], right);
    close(sockets[0]);
    close(sockets[1]);
    int one = outcome(first, "left", answers[0], sizeof answers[0]);
    int two = outcome(second, "right", answers[1], sizeof answers[1]);
    if (one == ANSWERED && two == ANSWERED) return ANSWERED;
    return (one == ANSWERED || one == PEER_LOST) && (two == ANSWERED || two == PEER_LOST) ? PEER_LOST : FAILED;
}

static int say(const char *answer) {
    char sentence[64];
    long days = strtol(answer, NULL, 10);
    if (days == 0) {
        snprintf(sentence, sizeof sentence, "streak whole: no day was missed by both\n");
    } else {
        snprintf(sentence, sizeof sentence, "%ld %s missed by both\n", days, days == 1 ? "day" : "days");
    }
    size_t bytes = strlen(sentence);
    return write(STDOUT_FILENO, sentence, bytes) == (ssize_t)bytes ? ANSWERED : FAILED;
}

int supervise(const char *folder, const char *left_days, const char *right_days, const char *number) {
    char *left[] = {"streak", "left", (char *)folder, (char *)left_days, (char *)number, NULL};
    char *right[] = {"streak", "right", (char *)folder, (char *)right_days, (char *)number, NULL};
    char answers[2][16];
    /* two of these would start their ends again and again in each other's way */
    store_folder(folder);
    store_wait(folder);
    have_tapes(folder);
    int how = PEER_LOST;
    for (int i = 0; i < STARTS && how == PEER_LOST; i++) how = run_ends(left, right, answers);
    if (how == PEER_LOST) fail("the ends were started %d times", STARTS);
    if (how != ANSWERED) return FAILED;
    if (strcmp(answers[0], answers[1]) != 0 || answers[0][0] == 0) fail("the ends do not agree");
    return say(answers[0]);
}
