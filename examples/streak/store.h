/* Files of one folder. Whatever fails here ends the process: an app that cannot write its state must not go on. */
#ifndef STORE_H
#define STORE_H

#include <stddef.h>

/* Makes the folder where it is missing. */
void store_folder(const char *folder);

/* Waits until no other process has the folder, and has it until this one ends, however it ends. */
void store_wait(const char *folder);

/* The same for the folder of an end or the dealer, and brings to the disk what a killed process may have left. Where that takes longer
 * than a second or so the process ends with PEER_LOST: others are at work, and it may be started again. */
void store_lock(const char *folder);

/* The file's bytes, all of them; 0 where there is no such file. A file of another length is damaged. */
int store_load(const char *folder, const char *name, void *bytes, size_t count);

/* Puts a file there as a whole: after a crash it is the old or the new one, and after the return it is the new one. */
void store_save(const char *folder, const char *name, const void *bytes, size_t count);

/* Overwrites a part of a file. A crash may leave it half written: who calls this can do it again. */
void store_patch(const char *folder, const char *name, size_t at, const void *bytes, size_t count);

void store_remove(const char *folder, const char *name);

#endif
