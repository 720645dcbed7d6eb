#include "folders.h"

#include <stdio.h>
#include <string.h>

#include "basics.h"
#include "store.h"

struct folders folders_of(const char *folder) {
    struct folders at;
    if (strlen(folder) + sizeof "/dealer" > FOLDER_BYTES) fail("the path of the folder is too long");
    snprintf(at.left, sizeof at.left, "%s/left", folder);
    snprintf(at.right, sizeof at.right, "%s/right", folder);
    snprintf(at.dealer, sizeof at.dealer, "%s/dealer", folder);
    return at;
}

struct folders folders_make(const char *folder) {
    struct folders at = folders_of(folder);
    store_folder(folder);
    store_folder(at.left);
    store_folder(at.right);
    store_folder(at.dealer);
    return at;
}
