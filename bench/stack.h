// The stack of a call, measured by what it writes below the caller.
//   stack_of(name, f, turn, most)   one line: the bytes below its caller that a turn of f wrote, of the STACK_AREA bytes looked at
#include <stdbool.h>
#include <stddef.h>

#define STACK_AREA 131072

static __attribute__((noinline)) size_t painted(bool paint) {
    unsigned char area[STACK_AREA];
    volatile unsigned char *at = area;
    size_t i;
    __asm__ volatile("" : "+r"(at));
    if (paint) {
        for (i = 0; i < sizeof area; i++) at[i] = 0xa5;
        return 0;
    }
    for (i = 0; i < sizeof area && at[i] == 0xa5; i++) {}
    return sizeof area - i;
}

static void stack_of(const char *name, work f, uint32_t turn, size_t most) {
    painted(true);
    f(turn);
    size_t used = painted(false);
    printf("%-44s | %10zu bytes, at most %zu%s\n", name, used, most, used > most ? "  ABOVE" : "");
}
