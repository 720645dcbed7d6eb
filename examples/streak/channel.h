/* The socket to the other end: standard input, which is read and written. */
#ifndef CHANNEL_H
#define CHANNEL_H

#include "terms.h"

struct channel {
    size_t have, used; /* bytes that have arrived, and those of the line that was given last */
    uint8_t bytes[LINE_BYTES];
};

/* Sets how long a silent peer is waited for. */
void channel_open(void);

/* Sends all bytes. A peer that is gone is no fault here: the next read tells. */
void channel_send(const void *bytes, size_t count);

/* Says that nothing more is sent: the peer then reads the end of the file, and need not be killed by a broken pipe. */
void channel_close(void);

/* The next line with its byte 10, good until the next call; 0 where the peer is gone or has sent all. */
size_t channel_line(struct channel *channel, const uint8_t **line);

/* Number `which`, from 0, of a line; 0 where there is none. The engine judges the line. */
uint32_t line_number(const uint8_t *line, size_t bytes, size_t which);

#endif
