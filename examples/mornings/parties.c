#include "parties.h"

#include <errno.h>
#include <stdio.h>
#include <stdlib.h>
#include <string.h>
#include <sys/random.h>

/* What both makers agree on before a session. */
struct terms {
    size_t solver, day;
    uint32_t session, tape;
};

/* What goes from one maker to the other; room for a line of either kind. */
struct line {
    uint8_t bytes[YUTHSAOK_LINE_BYTES(YUTHSAOK_X1_R1_RESIDUES(1, 1, 1))];
    size_t length;
};

void must(uint32_t number, const char *who, const char *call, size_t day) {
    uint8_t word[YUTHSAOK_REFUSAL_WORD_BYTES];
    if (number == 0) return;
    int bytes = (int)yuthsaok_refusal_word(number, word, sizeof word);
    fflush(stdout);
    fprintf(stderr, "mornings: morning %zu: %s's %s was refused by %u, %.*s\n", day + 1, who, call, (unsigned)number,
            bytes, (const char *)word);
    exit(1);
}

static void random_bytes(uint8_t *bytes, size_t count) {
    while (count > 0) {
        ssize_t got = getrandom(bytes, count, 0);
        if (got < 0 && errno != EINTR) {
            fputs("mornings: the system gives no random bytes\n", stderr);
            exit(1);
        }
        if (got <= 0) continue;
        bytes += got;
        count -= (size_t)got;
    }
}

/* Makes a tape of a new number, hands each maker its half, and keeps neither. */
static uint32_t deal(struct dealer *dealer, struct maker *makers, size_t solver, size_t day) {
    uint8_t words[4 * YUTHSAOK_RAW_WORDS(YUTHSAOK_PRODUCT_DRAWS(1, 1, 1))];
    random_bytes(words, sizeof words);
    yuthsaok_report report =
        yuthsaok_deal(YUTHSAOK_PRODUCT, dealer->halves[LEFT], SLOT_BYTES, dealer->halves[RIGHT], SLOT_BYTES, SLOT_WORDS,
                      0, ++dealer->last_tape, Q, 1, 1, 1, words, sizeof words);
    must(report.number, "dealer", "yuthsaok_deal", day);
    for (size_t i = 0; i < MAKERS; i++) memcpy(makers[i].pool + solver * SLOT_BYTES, dealer->halves[i], SLOT_BYTES);
    memset(dealer->halves, 0, sizeof dealer->halves);
    return dealer->last_tape;
}

/* Right's first step. */
static struct line ask(struct maker *right, const struct terms *t) {
    struct line line;
    yuthsaok_report report =
        yuthsaok_first(right->records[t->solver], YUTHSAOK_RECORD_BYTES, YUTHSAOK_RIGHT, right->pool,
                       sizeof right->pool, SLOT_WORDS, t->solver, t->session, t->tape, Q, 1, 1, 1,
                       right->flags[t->solver] + 4 * t->day, 4, NULL, 0, NULL, 0, NULL, 0, line.bytes,
                       sizeof line.bytes, NULL, 0);
    must(report.number, right->name, "yuthsaok_first", t->day);
    line.length = report.bytes;
    return line;
}

/* Left's one step, with its share of the day. */
static struct line answer(struct maker *left, const struct terms *t, const struct line *asked) {
    struct line line;
    uint8_t words[4 * YUTHSAOK_RAW_WORDS(YUTHSAOK_LEFT_COINS(1, 1))];
    random_bytes(words, sizeof words);
    yuthsaok_report report =
        yuthsaok_first(left->records[t->solver], YUTHSAOK_RECORD_BYTES, YUTHSAOK_LEFT, left->pool, sizeof left->pool,
                       SLOT_WORDS, t->solver, t->session, t->tape, Q, 1, 1, 1, left->flags[t->solver] + 4 * t->day, 4,
                       words, sizeof words, NULL, 0, asked->bytes, asked->length, line.bytes, sizeof line.bytes,
                       left->shares[t->solver] + 4 * t->day, 4);
    must(report.number, left->name, "yuthsaok_first", t->day);
    line.length = report.bytes;
    return line;
}

/* Right's last step, with its share of the day. */
static void finish(struct maker *right, const struct terms *t, const struct line *answered) {
    yuthsaok_report report =
        yuthsaok_next(right->records[t->solver], YUTHSAOK_RECORD_BYTES, right->pool, sizeof right->pool, SLOT_WORDS,
                      t->solver, NULL, 0, answered->bytes, answered->length, NULL, 0,
                      right->shares[t->solver] + 4 * t->day, 4);
    must(report.number, right->name, "yuthsaok_next", t->day);
}

void play_day(struct dealer *dealer, struct maker makers[MAKERS], size_t solver, size_t day) {
    struct terms t = {solver, day, (uint32_t)(SOLVERS * day + solver + 1), 0};
    t.tape = deal(dealer, makers, solver, day);
    struct line asked = ask(&makers[RIGHT], &t);
    struct line answered = answer(&makers[LEFT], &t, &asked);
    finish(&makers[RIGHT], &t, &answered);
}
