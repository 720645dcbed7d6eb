#include "basics.h"

#include <errno.h>
#include <stdarg.h>
#include <stdio.h>
#include <stdlib.h>
#include <sys/random.h>

#include "yuthsaok.h"

uint32_t get_word(const uint8_t *bytes, size_t index) {
    const uint8_t *at = bytes + 4 * index;
    return at[0] | (uint32_t)at[1] << 8 | (uint32_t)at[2] << 16 | (uint32_t)at[3] << 24;
}

void put_word(uint8_t *bytes, size_t index, uint32_t word) {
    for (size_t i = 0; i < 4; i++) bytes[4 * index + i] = (uint8_t)(word >> 8 * i);
}

void random_bytes(uint8_t *bytes, size_t count) {
    while (count > 0) {
        ssize_t got = getrandom(bytes, count, 0);
        if (got < 0 && errno != EINTR) fail("the system gives no random bytes");
        if (got <= 0) continue;
        bytes += got;
        count -= (size_t)got;
    }
}

void fail(const char *format, ...) {
    va_list values;
    va_start(values, format);
    fputs("streak: ", stderr);
    vfprintf(stderr, format, values);
    fputs("\n", stderr);
    va_end(values);
    exit(FAILED);
}

void fail_refused(const char *who, uint32_t number) {
    uint8_t word[YUTHSAOK_REFUSAL_WORD_BYTES];
    size_t bytes = yuthsaok_refusal_word(number, word, sizeof word);
    fail("%s was refused by %u, %.*s", who, number, (int)bytes, (const char *)word);
}
