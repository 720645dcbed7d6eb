// A message line of 3,072 residues, read and written with all checks, beside Rust's split/parse and write! (bench/line.rs) and
// C's strtoul and sprintf, none of which checks anything but a number's digits.
#include <string.h>
#include "timing.h"

#define COUNT 3072
#define Q 2147483647u

size_t bench_line_read(const uint8_t *s, size_t bytes, uint32_t *out, size_t words);
size_t bench_line_write(uint32_t q, const uint32_t *residues, size_t words, uint8_t *out, size_t bytes);
size_t rust_read(const uint8_t *s, size_t bytes, uint32_t *out, size_t words);
size_t rust_write(uint32_t q, const uint32_t *residues, size_t words, uint8_t *out, size_t bytes);

static uint32_t residues[COUNT], out[COUNT];
static uint8_t text[65537], line[65536];
static size_t length;

// Every turn must find the same: a count, the last residue and one in the middle.
static uint64_t seen(size_t n, uint32_t turn) {
    return n + out[COUNT - 1] + ((uint64_t)out[turn % COUNT] << 20);
}

static uint64_t read_ours(uint32_t turn) { return seen(bench_line_read(text, length, out, COUNT), turn); }
static uint64_t read_rust(uint32_t turn) { return seen(rust_read(text, length, out, COUNT), turn); }

static uint64_t read_c(uint32_t turn) {
    char *at = (char *)text;
    size_t n = 0;
    while (*at) {
        uint32_t value = strtoul(at, &at, 10);
        if (n >= 7) out[n - 7] = value;
        n++, at++;
    }
    return seen(n - 7, turn);
}

static uint64_t sent(size_t n, uint32_t turn) {
    return n + line[n - 1] + ((uint64_t)line[turn % n] << 20);
}

static uint64_t write_ours(uint32_t turn) { return sent(bench_line_write(Q, residues, COUNT, line, sizeof line), turn); }
static uint64_t write_rust(uint32_t turn) { return sent(rust_write(Q, residues, COUNT, line, sizeof line), turn); }

static uint64_t write_c(uint32_t turn) {
    char *at = (char *)line;
    at += sprintf(at, "2,9,4,%u,32,64,32", Q);
    for (int i = 0; i < COUNT; i++) at += sprintf(at, ",%u", residues[i]);
    *at++ = '\n';
    return sent(at - (char *)line, turn);
}

int main(void) {
    for (int i = 0; i < COUNT; i++) residues[i] = random32() % Q;
    length = bench_line_write(Q, residues, COUNT, text, sizeof text - 1);
    if (bench_line_read(text, length, out, COUNT) != COUNT || memcmp(out, residues, sizeof out)) return puts("wrong"), 1;
    heading("message line, 3,072 residues");
    row("read beside split and parse", read_ours, read_rust, 100, 0.6);
    row("read beside strtoul", read_ours, read_c, 100, 0);
    row("write beside write!", write_ours, write_rust, 100, 0.6);
    row("write beside sprintf", write_ours, write_c, 100, 0);
    return 0;
}
