/* 130 mornings of two app makers: "the last 30 days" and "the last 100 days" of two solvers, side by side, each moved on
 * by a day every morning.
 *
 * One process plays the dealer and both makers, so that the calls stand in the order in which they are made. An app never
 * does this: who has both halves of a tape reads the other's flag. examples/streak has processes, crashes and stores. */
#include <stdio.h>
#include <stdlib.h>
#include <string.h>

#include "parties.h"

static const size_t spans[WINDOWS] = {30, 100};
static const char *const maker_names[MAKERS] = {"breakfast", "train"};
static const char *const solver_names[SOLVERS] = {"ada", "ben"};

/* Made up, a flag a day, 1 for a missed day; breakfast's above train's, so a day missed with both is a column of 1s. */
static const char missed[SOLVERS][MAKERS][DAYS + 1] = {
    {"0001111000000010110101000011010100101010110110000001100000000100001010000000101010001000000010000010000110000100000000000100000000",
     "0000110010000000010000000000010000000110010000000000100000000010001000001000000001000011000000010001001000000010001000100010100001"},
    {"0010010000000000000000000100010000010000001010000001100001100100100000110000000010010000001000000001000000101001000000001100000000",
     "1110000010000000000000000000010000000100000010010100010001100000000110010110100000010100011000000001001001011010010000010100000010"},
};

/* A share counts days only where its inputs were flags: a 2 among them would count a day twice. */
static void judge_flags(const struct maker *maker, size_t solver, size_t day) {
    must(yuthsaok_flags_fit(maker->flags[solver], 4 * (day + 1)), maker->name, "yuthsaok_flags_fit", day);
}

/* A window is summed on the morning when it first fits. From then on it is moved: that looks at two days, however long the
 * window is, and needs the maker's share of yesterday. */
static void move_window(struct maker *maker, size_t solver, size_t window, size_t day) {
    size_t days = day + 1, w = spans[window];
    const uint8_t *run = maker->shares[solver];
    uint32_t *share = &maker->windows[solver][window];
    yuthsaok_share moved;
    if (days == w) {
        moved = yuthsaok_window_share(Q, run, 4 * days, 0, w);
        must(moved.number, maker->name, "yuthsaok_window_share", day);
    } else {
        size_t yesterdays_first = days - 1 - w;
        moved = yuthsaok_next_window(Q, run, 4 * days, yesterdays_first, w, *share);
        must(moved.number, maker->name, "yuthsaok_next_window", day);
    }
    *share = moved.share;
}

/* The morning after a day, for one solver. */
static void play_morning(struct dealer *dealer, struct maker *makers, size_t solver, size_t day) {
    for (size_t i = 0; i < MAKERS; i++) judge_flags(&makers[i], solver, day);
    play_day(dealer, makers, solver, day);
    for (size_t i = 0; i < MAKERS * WINDOWS; i++) {
        size_t window = i / MAKERS;
        if (day + 1 >= spans[window]) move_window(&makers[i % MAKERS], solver, window, day);
    }
}

/* Both makers show their shares of a window: its days that were missed with both. More than there are days cannot be; no
 * call can notice runs that are out of step, or a window that only one maker has moved. */
static unsigned opened(const struct maker *makers, size_t solver, size_t window) {
    uint32_t a = makers[LEFT].windows[solver][window], b = makers[RIGHT].windows[solver][window];
    unsigned count = (a + b) % Q;
    if (count > spans[window]) {
        fflush(stdout);
        fprintf(stderr, "mornings: %s: %u of the last %zu days: the two shares are not of one window\n",
                solver_names[solver], count, spans[window]);
        exit(1);
    }
    return count;
}

static void print_head(void) {
    char label[16];
    printf("morning");
    for (size_t i = 0; i < SOLVERS * WINDOWS; i++) {
        snprintf(label, sizeof label, "%s %zu", solver_names[i / WINDOWS], spans[i % WINDOWS]);
        printf("  %7s", label);
    }
    printf("\n");
}

static void print_morning(const struct maker *makers, size_t day) {
    printf("%7zu", day + 1);
    for (size_t i = 0; i < SOLVERS * WINDOWS; i++) {
        if (day + 1 < spans[i % WINDOWS]) {
            printf("  %7s", "-");
        } else {
            printf("  %7u", opened(makers, i / WINDOWS, i % WINDOWS));
        }
    }
    printf("\n");
}

static void print_close(const struct maker *makers, size_t solver) {
    printf("%s:", solver_names[solver]);
    for (size_t window = 0; window < WINDOWS; window++) {
        unsigned count = opened(makers, solver, window);
        if (window > 0) printf(";");
        if (count == 0) {
            printf(" whole streak in the last %zu days", spans[window]);
        } else {
            printf(" %u of the last %zu days missed with both", count, spans[window]);
        }
    }
    printf("\n");
}

static void print_flags(void) {
    for (size_t i = 0; i < SOLVERS * MAKERS; i++) {
        size_t solver = i / MAKERS, maker = i % MAKERS;
        printf("%s %s %s\n", solver_names[solver], maker_names[maker], missed[solver][maker]);
    }
}

static void take_flags(struct maker *maker, size_t which) {
    maker->name = maker_names[which];
    for (size_t i = 0; i < SOLVERS * DAYS; i++) {
        size_t solver = i / DAYS, day = i % DAYS;
        uint32_t flag = (uint32_t)(missed[solver][which][day] - '0');
        for (size_t j = 0; j < 4; j++) maker->flags[solver][4 * day + j] = (uint8_t)(flag >> 8 * j);
    }
}

static void play(void) {
    static struct dealer dealer;
    static struct maker makers[MAKERS];
    for (size_t i = 0; i < MAKERS; i++) take_flags(&makers[i], i);
    print_head();
    for (size_t day = 0; day < DAYS; day++) {
        for (size_t solver = 0; solver < SOLVERS; solver++) play_morning(&dealer, makers, solver, day);
        print_morning(makers, day);
    }
    for (size_t solver = 0; solver < SOLVERS; solver++) print_close(makers, solver);
}

int main(int count, char **arguments) {
    if (yuthsaok_version() != YUTHSAOK_VERSION) {
        fputs("mornings: the archive has another version than the header\n", stderr);
        return 1;
    }
    if (count == 1) {
        play();
    } else if (count == 2 && strcmp(arguments[1], "--flags") == 0) {
        print_flags();
    } else {
        fputs("usage: mornings [--flags]\n", stderr);
        return 2;
    }
    return fflush(stdout) == 0 ? 0 : 1;
}
