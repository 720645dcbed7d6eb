/* The command line. Each role is a process of its own. */
#include <stdio.h>
#include <stdlib.h>
#include <string.h>

#include "basics.h"
#include "dealer.h"
#include "end.h"
#include "folders.h"
#include "supervisor.h"
#include "terms.h"

static int usage(void) {
    fputs("usage: streak deal DIR COUNT\n"
          "       streak left DIR DAYS [SESSION]\n"
          "       streak right DIR DAYS [SESSION]\n"
          "       streak run DIR LEFTDAYS RIGHTDAYS [SESSION]\n",
          stderr);
    return USAGE;
}

/* A number from 1 to `most`; ends the process at anything else. */
static uint32_t number_of(const char *text, uint32_t most) {
    char *end;
    unsigned long long number = strtoull(text, &end, 10);
    int is_one = text[0] >= '0' && text[0] <= '9' && *end == 0;
    if (!is_one || number == 0 || number > most) fail("%s is no number from 1 to %u", text, most);
    return (uint32_t)number;
}

int main(int count, char **arguments) {
    if (yuthsaok_version() != YUTHSAOK_VERSION) fail("the archive is of another version than its header");
    if (count < 4) return usage();
    const char *role = arguments[1];
    if (strcmp(role, "deal") == 0 && count == 4) {
        deal(arguments[2], number_of(arguments[3], SLOTS));
        return ANSWERED;
    }
    int is_run = strcmp(role, "run") == 0, at = is_run ? 5 : 4;
    if (count != at && count != at + 1) return usage();
    const char *text = count > at ? arguments[at] : "1";
    uint32_t number = number_of(text, YUTHSAOK_MOST_NUMBER);
    if (is_run) return supervise(arguments[2], arguments[3], arguments[4], text);
    struct folders folders = folders_of(arguments[2]);
    if (strcmp(role, "left") == 0) return end_run(YUTHSAOK_LEFT, folders.left, arguments[3], number);
    if (strcmp(role, "right") == 0) return end_run(YUTHSAOK_RIGHT, folders.right, arguments[3], number);
    return usage();
}
