#define _POSIX_C_SOURCE 200809L
#include "channel.h"

#include <errno.h>
#include <string.h>
#include <sys/socket.h>
#include <sys/time.h>
#include <unistd.h>

#include "basics.h"

enum { SOCKET = STDIN_FILENO };

/* An end that says nothing for so long counts as gone: the engine has no clock. */
enum { PATIENCE = 60 };

static int is_gone(void) {
    /* a read that lasts too long gives EAGAIN */
    return errno == EPIPE || errno == ECONNRESET || errno == EAGAIN;
}

void channel_open(void) {
    struct timeval patience = {.tv_sec = PATIENCE};
    if (setsockopt(SOCKET, SOL_SOCKET, SO_RCVTIMEO, &patience, sizeof patience) != 0) {
        fail("standard input is no socket: %s", strerror(errno));
    }
}

void channel_send(const void *bytes, size_t count) {
    size_t done = 0;
    while (done < count) {
        ssize_t sent = send(SOCKET, (const uint8_t *)bytes + done, count - done, MSG_NOSIGNAL);
        if (sent < 0 && is_gone()) return;
        if (sent < 0 && errno != EINTR) fail("nothing can be sent: %s", strerror(errno));
        if (sent > 0) done += (size_t)sent;
    }
}

void channel_close(void) {
    shutdown(SOCKET, SHUT_WR);
}

size_t channel_line(struct channel *channel, const uint8_t **line) {
    channel->have -= channel->used;
    memmove(channel->bytes, channel->bytes + channel->used, channel->have);
    channel->used = 0;
    for (;;) {
        const uint8_t *end = memchr(channel->bytes, '\n', channel->have);
        if (end != NULL) {
            *line = channel->bytes;
            return channel->used = (size_t)(end - channel->bytes) + 1;
        }
        if (channel->have == sizeof channel->bytes) fail("the other end sent a line that is too long");
        ssize_t got = read(SOCKET, channel->bytes + channel->have, sizeof channel->bytes - channel->have);
        if (got == 0 || (got < 0 && is_gone())) return 0;
        if (got < 0 && errno != EINTR) fail("nothing can be received: %s", strerror(errno));
        if (got > 0) channel->have += (size_t)got;
    }
}

uint32_t line_number(const uint8_t *line, size_t bytes, size_t which) {
    size_t at = 0;
    for (; which > 0; which--) {
        const uint8_t *comma = memchr(line + at, ',', bytes - at);
        if (comma == NULL) return 0;
        at = (size_t)(comma - line) + 1;
    }
    uint64_t number = 0;
    for (; at < bytes && line[at] >= '0' && line[at] <= '9'; at++) {
        number = 10 * number + (line[at] - '0');
        if (number > YUTHSAOK_MOST_NUMBER) return 0;
    }
    return (uint32_t)number;
}
