// Two functions timed beside each other. Each turn of `ours` and `other` with the same number must return the same value.
//   heading(title)                              a table's head
//   row(name, ours, other, turns, bound)        one line: nanoseconds a turn, medians over the rounds, and the median of the rounds' ratios,
//                                               which it gives too
//   point(series, size, f, turns)               one point of the plot of time against size: the least of the rounds
//   random32()                                  seeded numbers, the same in every run
// The two take turns in each round, and the other begins in every second one; the clock is the thread's CPU time.
#include <stdint.h>
#include <stdio.h>
#include <stdlib.h>
#include <time.h>

#define ROUNDS 31

typedef uint64_t (*work)(uint32_t turn);

static double now(void) {
    struct timespec t;
    clock_gettime(CLOCK_THREAD_CPUTIME_ID, &t);
    return t.tv_sec * 1e9 + t.tv_nsec;
}

static int ascending(const void *a, const void *b) {
    double x = *(const double *)a, y = *(const double *)b;
    return (x > y) - (x < y);
}

static double median(double *times) {
    qsort(times, ROUNDS, sizeof *times, ascending);
    return times[ROUNDS / 2];
}

static uint64_t run(work f, uint32_t turns, double *time) {
    uint64_t sum = 0;
    double start = now();
    for (uint32_t i = 0; i < turns; i++) sum += f(i);
    *time = (now() - start) / turns;
    return sum;
}

static inline uint32_t random32(void) {
    static uint64_t s = 88172645463325252u;
    s ^= s << 13, s ^= s >> 7, s ^= s << 17;
    return s >> 32;
}

static void heading(const char *title) {
    printf("\n%-44s | %10s | %10s | %6s | %s\n", title, "ours ns", "other ns", "ratio", "bound");
}

// A bound of 0 is none.
static double row(const char *name, work ours, work other, uint32_t turns, double bound) {
    static double mine[ROUNDS], theirs[ROUNDS], ratios[ROUNDS];
    for (int r = -1; r < ROUNDS; r++) {
        double first, second;
        uint64_t a = r & 1 ? run(other, turns, &first) : run(ours, turns, &first);
        uint64_t b = r & 1 ? run(ours, turns, &second) : run(other, turns, &second);
        if (a != b) {
            printf("%s: the results differ\n", name);
            exit(1);
        }
        if (r < 0) continue; // a round to warm up
        mine[r] = r & 1 ? second : first;
        theirs[r] = r & 1 ? first : second;
        ratios[r] = mine[r] / theirs[r];
    }
    double ratio = median(ratios);
    printf("%-44s | %10.1f | %10.1f | %6.3f |", name, median(mine), median(theirs), ratio);
    if (bound > 0) printf(" %.2f%s", bound, ratio > bound ? "  ABOVE" : "");
    printf("\n");
    fflush(stdout);
    return ratio;
}

// A line `series size nanoseconds` in the file that GROWTH names, if it names one.
static inline void point(const char *series, unsigned size, work f, uint32_t turns) {
    static double times[ROUNDS];
    const char *path = getenv("GROWTH");
    FILE *file = path ? fopen(path, "a") : NULL;
    if (!file) return;
    run(f, turns, times); // a round to warm up
    for (int r = 0; r < ROUNDS; r++) run(f, turns, times + r);
    median(times); // sorts them
    fprintf(file, "%s %u %.1f\n", series, size, times[0]);
    fclose(file);
}
