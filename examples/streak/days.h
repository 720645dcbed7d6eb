/* A list of days from a file: one line of DAYS flags, 1 for a day that was missed. */
#ifndef DAYS_H
#define DAYS_H

#include "terms.h"

/* Reads the flags as words, as the engine takes them; ends the process where the file is something else. */
void days_read(const char *path, uint8_t input[INPUT_BYTES]);

#endif
