/* Decodes the same blocks as `kernel_bench blocks` and prints the same number.
   Usage: ima CHANNELS ROUNDS. */
#include "ima_step.h"
#include <stdint.h>
#include <stdio.h>
#include <stdlib.h>

enum { BLOCKS = 16, CHANNEL_BYTES = 4096, SAMPLES = 2 * 8185 };

/* Decodes a block into interleaved samples, group by group, and answers its frames. */
__attribute__((noinline))
static size_t decode_block(const uint8_t *block, size_t bytes, size_t channels, int16_t *out)
{
    if (bytes < 4 * channels) return 0;
    size_t groups = (bytes - 4 * channels) / (4 * channels);
    for (size_t c = 0; c < channels; c++) {
        const uint8_t *h = block + 4 * c;
        struct decoder d = { (int16_t)(h[0] | h[1] << 8), h[2] };
        const uint8_t *word = block + 4 * channels + 4 * c;
        int16_t *to = out + c;
        *to = (int16_t)d.predictor;
        for (size_t g = 0; g < groups; g++, word += 4 * channels)
            for (int k = 0; k < 4; k++) {
                to += channels;
                *to = step(&d, word[k] & 15);
                to += channels;
                *to = step(&d, word[k] >> 4);
            }
    }
    return 1 + 8 * groups;
}

int main(int argc, char **argv)
{
    if (argc != 3) return 2;
    size_t channels = strtoul(argv[1], NULL, 10), rounds = strtoul(argv[2], NULL, 10);
    if (channels < 1 || channels > 2) return 2;
    static uint8_t blocks[BLOCKS * CHANNEL_BYTES * 2];
    static int16_t out[SAMPLES];
    size_t align = CHANNEL_BYTES * channels;
    uint32_t x = 1, sum = 0;
    for (size_t i = 0; i < BLOCKS; i++) {
        uint8_t *block = blocks + i * align;
        for (size_t k = 0; k < align; k++) {
            x = x * 1664525u + 1013904223u;
            block[k] = x >> 24;
        }
        for (size_t c = 0; c < channels; c++) block[4 * c + 2] %= 89;
    }
    for (size_t r = 0; r < rounds; r++)
        for (size_t i = 0; i < BLOCKS; i++) {
            size_t frames = decode_block(blocks + i * align, align, channels, out);
            sum = sum * 31 + (uint16_t)out[frames * channels - 1];
        }
    for (size_t k = 0; k < SAMPLES; k++) sum = sum * 31 + (uint16_t)out[k];
    printf("%u\n", sum);
    return 0;
}
