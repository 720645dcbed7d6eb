#include "days.h"

#include <stdio.h>

#include "basics.h"

void days_read(const char *path, uint8_t input[INPUT_BYTES]) {
    char flags[DAYS + 2];
    FILE *file = fopen(path, "r");
    if (file == NULL) fail("%s cannot be read", path);
    size_t got = fread(flags, 1, sizeof flags, file);
    fclose(file);
    if (got != DAYS + 1 || flags[DAYS] != '\n') fail("%s is not one line of %d flags", path, DAYS);
    for (size_t i = 0; i < DAYS; i++) {
        if (flags[i] != '0' && flags[i] != '1') fail("%s has a flag that is neither 0 nor 1", path);
        put_word(input, i, flags[i] == '1');
    }
}
