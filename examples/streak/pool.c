#include "pool.h"

#include <string.h>

#include "basics.h"
#include "store.h"

int pool_load(struct pool *pool, const char *folder) {
    pool->folder = folder;
    return store_load(folder, "tapes", pool->bytes, POOL_BYTES);
}

void pool_make(const char *folder) {
    static struct pool empty;
    if (!pool_load(&empty, folder)) store_save(folder, "tapes", empty.bytes, POOL_BYTES);
}

uint8_t *pool_slot(struct pool *pool, size_t index) {
    return pool->bytes + SLOT_BYTES * index;
}

uint32_t pool_status(struct pool *pool, size_t index) {
    return get_word(pool_slot(pool, index), YUTHSAOK_TAPE_STATUS);
}

uint32_t pool_tape(struct pool *pool, size_t index) {
    return get_word(pool_slot(pool, index), YUTHSAOK_TAPE_NUMBER);
}

size_t pool_ready(struct pool *pool) {
    size_t index = 0;
    while (index < SLOTS && pool_status(pool, index) != YUTHSAOK_READY) index++;
    return index;
}

size_t pool_find(struct pool *pool, uint32_t tape) {
    size_t index = 0;
    while (index < SLOTS && (pool_status(pool, index) == YUTHSAOK_EMPTY || pool_tape(pool, index) != tape)) index++;
    return index;
}

void pool_write(struct pool *pool, size_t index, const uint8_t *slot) {
    uint8_t *own = pool_slot(pool, index);
    if (own != slot) memcpy(own, slot, SLOT_BYTES);
    store_patch(pool->folder, "tapes", SLOT_BYTES * index, slot, SLOT_BYTES);
}
