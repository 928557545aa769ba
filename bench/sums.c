/* Works on the same sums as `kernel_bench sums` and prints the same number. Usage: sums WORK ROUNDS. */
#include <stdint.h>
#include <stdio.h>
#include <stdlib.h>
#include <string.h>

enum { SUMS = 1024 };

static uint32_t state = 1;

static uint32_t next_state(void)
{
    state = state * 1664525u + 1013904223u;
    return state;
}

static int64_t drawn(void)
{
    return ((int64_t)next_state() - 2147483648) / 64;
}

static int32_t sat24(int64_t x)
{
    return x < -8388608 ? -8388608 : x > 8388607 ? 8388607 : (int32_t)x;
}

/* Right shifts of negative numbers round down, as both compilers have them. */
__attribute__((noinline))
static void add_scaled(int64_t *restrict acc, const int32_t *restrict x, size_t n, uint32_t gain)
{
    for (size_t i = 0; i < n; i++) acc[i] += ((int64_t)x[i] * gain) >> 16;
}

__attribute__((noinline))
static void settle(const int64_t *restrict acc, int32_t *restrict out, size_t n)
{
    for (size_t i = 0; i < n; i++) out[i] = sat24(acc[i]);
}

int main(int argc, char **argv)
{
    static int64_t sums[SUMS], added[SUMS];
    static int32_t samples[SUMS];
    uint32_t sum = 0;
    if (argc != 3) return 2;
    unsigned long rounds = strtoul(argv[2], NULL, 10);
    for (size_t i = 0; i < SUMS; i++) sums[i] = drawn();
    if (!strcmp(argv[1], "add")) {
        settle(sums, samples, SUMS);
        for (unsigned long r = 0; r < rounds; r++) {
            uint32_t gain = next_state() >> 12;
            memset(added, 0, sizeof added);
            add_scaled(added, samples, SUMS, gain);
            sum = sum * 31 + (uint32_t)sat24(added[SUMS - 1]);
        }
        for (size_t i = 0; i < SUMS; i++) sum = sum * 31 + (uint32_t)sat24(added[i]);
    } else if (!strcmp(argv[1], "settle")) {
        for (unsigned long r = 0; r < rounds; r++) {
            sums[SUMS - 1] = drawn();
            settle(sums, samples, SUMS);
            sum = sum * 31 + (uint32_t)samples[SUMS - 1];
        }
        for (size_t i = 0; i < SUMS; i++) sum = sum * 31 + (uint32_t)samples[i];
    } else {
        return 2;
    }
    printf("%u\n", sum);
    return 0;
}
