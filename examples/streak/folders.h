/* The folders below DIR. With each party on its own machine, each would have its own. */
#ifndef FOLDERS_H
#define FOLDERS_H

enum { FOLDER_BYTES = 3072 };

struct folders {
    char left[FOLDER_BYTES], right[FOLDER_BYTES], dealer[FOLDER_BYTES];
};

struct folders folders_of(const char *folder);

/* The same, and makes those that are missing. */
struct folders folders_make(const char *folder);

#endif
