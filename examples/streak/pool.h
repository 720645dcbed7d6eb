/* The tapes of one end: a file of SLOTS slots, and its bytes in memory while a process works on them. */
#ifndef POOL_H
#define POOL_H

#include "terms.h"

struct pool {
    const char *folder;
    uint8_t bytes[POOL_BYTES];
};

/* Reads the pool of an end's folder; 0 where none was dealt there. */
int pool_load(struct pool *pool, const char *folder);

/* Makes a pool of empty slots where there is none. */
void pool_make(const char *folder);

uint8_t *pool_slot(struct pool *pool, size_t index);
uint32_t pool_status(struct pool *pool, size_t index);
uint32_t pool_tape(struct pool *pool, size_t index);

/* The first slot with a ready tape; SLOTS where there is none. */
size_t pool_ready(struct pool *pool);

/* The slot that bears a tape number, whatever its status; SLOTS where none does. */
size_t pool_find(struct pool *pool, uint32_t tape);

/* Writes a slot's bytes in memory and in the file. To do it twice does no harm. */
void pool_write(struct pool *pool, size_t index, const uint8_t *slot);

#endif
