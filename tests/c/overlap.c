// One buffer as message and as line: the compiler must warn.
#include "yuthsaok.h"

uint32_t answer(uint8_t *record, uint8_t *pool, uint8_t *line, size_t bytes, uint8_t *result) {
    return yuthsaok_next(record, YUTHSAOK_RECORD_BYTES, pool, 40, 10, 0, 0, 0, line, bytes, line, 64, result, 4).number;
}
