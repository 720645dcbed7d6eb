/* Words in bytes, randomness, and the one way to fail. */
#ifndef BASICS_H
#define BASICS_H

#include <stddef.h>
#include <stdint.h>

/* How a process ends; the supervisor starts the ends again after PEER_LOST or a signal, and after nothing else. */
enum { ANSWERED = 0, FAILED = 1, USAGE = 2, PEER_LOST = 3 };

uint32_t get_word(const uint8_t *bytes, size_t index);
void put_word(uint8_t *bytes, size_t index, uint32_t word);

void random_bytes(uint8_t *bytes, size_t count);

/* Says one sentence on standard error and ends the process with FAILED. */
_Noreturn void fail(const char *format, ...);

/* The same, with the sentence that `who` was refused by a number, and its word. */
_Noreturn void fail_refused(const char *who, uint32_t number);

#endif
