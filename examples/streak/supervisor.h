/* The supervisor: starts the dealer and the two ends, and starts them again where one dies. */
#ifndef SUPERVISOR_H
#define SUPERVISOR_H

/* Returns how the process ends. */
int supervise(const char *folder, const char *left_days, const char *right_days, const char *number);

#endif
