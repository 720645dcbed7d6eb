// A whole product session of vectors, dealing aside, beside a trivial exchange of the same vectors: right sends its vector, left
// multiplies. Both use the engine's own lines and inner product, so that a ratio shows what the protocol costs: two messages instead of
// one, masks, and three steps with all their checks. The trivial vector goes as the line of a message 1.
// A turn of the session begins with both halves of its tape copied anew into the pools, which is counted. Every turn of a round has vectors
// of its own: numbers that come again in every turn have digits that a processor learns to foresee, and it learns the one line of the
// trivial exchange sooner than the two of a session. Then the stack of each entry.
#include "product.h"
#include "timing.h"
#include "stack.h"
#include <string.h>

#define MOST 2048
#define WORDS 6000
#define VECTORS 200

typedef size_t (*reader)(const uint8_t *s, size_t n, uint32_t *out, size_t room);

static uint32_t left_tape[7 + MOST + 1], right_tape[7 + MOST + 1], left_pool[7 + MOST + 1], right_pool[7 + MOST + 1];
static uint32_t xs[VECTORS][MOST], ys[VECTORS][MOST], *x = xs[0], *y = ys[0], words[WORDS], y1[MOST], got1[MOST], x1r1[MOST + 1], got2[MOST + 1], u[1], v[1], q, k;
static uint8_t line[65536];
static size_t size, bytes;

static void choose(uint32_t turn) { x = xs[turn % VECTORS], y = ys[turn % VECTORS]; }

// A message as a line, from one end's words to the other's.
static bool carry(uint32_t kind, const uint32_t *sent, size_t n, uint32_t *got, reader read) {
    bytes = bench_write(kind, q, 1, k, 1, sent, n, line, sizeof line);
    return read(line, bytes, got, n) == n;
}

static bool begin(void) {
    memcpy(left_pool, left_tape, size * 4), memcpy(right_pool, right_tape, size * 4);
    return bench_right_first(right_pool, size, size, q, 1, k, 1, y, k, y1, k);
}

static bool reply(const uint32_t *message) { return bench_left(left_pool, size, size, q, 1, k, 1, x, k, words, WORDS, message, k, x1r1, k + 1, u, 1); }
static bool end(const uint32_t *message) { return bench_right_last(right_pool, size, size, q, 1, k, 1, message, k + 1, v, 1); }

// A sum of q or more has q taken away.
static uint64_t sum(bool done) { return done ? (uint64_t)(u[0] + v[0]) % q : q; }

static uint64_t session(uint32_t turn) {
    choose(turn);
    return sum(begin() && reply(y1) && end(x1r1));
}

static uint64_t session_by(uint32_t turn, reader read) {
    choose(turn);
    return sum(begin() && carry(1, y1, k, got1, read) && reply(got1) && carry(2, x1r1, k + 1, got2, read) && end(got2));
}

static uint64_t session_parsed(uint32_t turn) { return session_by(turn, bench_parse); }
static uint64_t session_read(uint32_t turn) { return session_by(turn, bench_read); }

static uint64_t trivial(uint32_t turn) {
    choose(turn);
    memcpy(got1, y, k * 4);
    return bench_inner(q, x, k, got1, k);
}

static uint64_t trivial_by(uint32_t turn, reader read) {
    choose(turn);
    return carry(1, y, k, got1, read) ? bench_inner(q, x, k, got1, k) : q;
}
static uint64_t trivial_parsed(uint32_t turn) { return trivial_by(turn, bench_parse); }
static uint64_t trivial_read(uint32_t turn) { return trivial_by(turn, bench_read); }

// Vectors and a dealt tape for q and k.
static void start(uint32_t length, uint32_t modulus) {
    k = length, q = modulus, size = 7 + k + 1;
    memset(left_tape, 0, sizeof left_tape), memset(right_tape, 0, sizeof right_tape);
    for (size_t t = 0; t < VECTORS; t++)
        for (uint32_t i = 0; i < k; i++) xs[t][i] = random32() % q, ys[t][i] = random32() % q;
    if (!bench_deal(left_tape, size, right_tape, size, size, q, 1, k, 1, words, WORDS) || session(0) != trivial(0)) puts("wrong"), exit(1);
}

static void of(uint32_t length, uint32_t modulus) {
    char name[64];
    start(length, modulus);
    snprintf(name, sizeof name, "1 x %u x 1, q %u, beside trivial", k, q);
    heading(name);
    row("with lines (line::parse)", session_parsed, trivial_parsed, VECTORS, 2.2);
    row("with lines (line::read)", session_read, trivial_read, VECTORS, 2.2);
    row("no lines beside trivial with lines", session, trivial_parsed, VECTORS, 2.2);
    row("no lines beside trivial without", session, trivial, VECTORS, 0);
}

static uint64_t stack_first(uint32_t turn) { return begin(); }
static uint64_t stack_left(uint32_t turn) { return reply(y1); }
static uint64_t stack_last(uint32_t turn) { return end(x1r1); }
static uint64_t stack_write(uint32_t turn) { return bytes = bench_write(2, q, 1, k, 1, x1r1, k + 1, line, sizeof line); }
static uint64_t stack_parse(uint32_t turn) { return bench_parse(line, bytes, got2, k + 1); }
static uint64_t stack_read(uint32_t turn) { return bench_read(line, bytes, got2, k + 1); }

int main(void) {
    for (size_t i = 0; i < WORDS; i++) words[i] = random32();
    of(366, 367), of(366, 65537), of(366, 2147483647);
    of(2048, 367), of(2048, 65537), of(2048, 2147483647);
    printf("\n");
    stack_of("stack of right's first step, k 2,048", stack_first, 0, 65536);
    stack_of("stack of left's step", stack_left, 0, 65536);
    stack_of("stack of right's last step", stack_last, 0, 65536);
    stack_of("stack of line::write, 2,049 residues", stack_write, 0, 65536);
    stack_of("stack of line::parse", stack_parse, 0, 65536);
    stack_of("stack of line::read", stack_read, 0, 65536);
    for (uint32_t length = 1; length <= MOST; length *= 2) {
        start(length, 2147483647);
        point("product", length, session, 200000 / length);
    }
    return 0;
}
