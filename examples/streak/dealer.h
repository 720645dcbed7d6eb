/* The dealer: makes matched tapes and lays one half of each into each end's pool. */
#ifndef DEALER_H
#define DEALER_H

#include <stddef.h>

/* Deals so many tapes; where a dealing was cut short, finishes that one in its place. */
void deal(const char *folder, size_t count);

/* Whether a dealing was cut short, or no tape is ready at both ends. */
int needs_dealing(const char *folder);

#endif
