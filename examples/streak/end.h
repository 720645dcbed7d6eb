/* One end of a session: takes its steps, and can be killed and started again at any moment. */
#ifndef END_H
#define END_H

#include <stdint.h>

/* Runs end YUTHSAOK_LEFT or YUTHSAOK_RIGHT in its folder, over the socket on standard input, and prints the answer.
 * Returns how the process ends. */
int end_run(uint32_t role, const char *folder, const char *days, uint32_t number);

#endif
