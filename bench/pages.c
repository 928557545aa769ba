/* What `kernel_bench pages` does, in C: decodes the same sound, a page of 8192 frames at a time, and prints the same
   number.
   Usage: pages KIND ROUNDS, where KIND is pcm16, pcm24 or alaw (stereo) or ima (mono, in blocks of 256 bytes). */
#include "ima_step.h"
#include <stdint.h>
#include <stdio.h>
#include <stdlib.h>
#include <string.h>

enum { SOUND_BYTES = 4194304, PAGE_FRAMES = 8192, BLOCK_BYTES = 256, BLOCK_FRAMES = 505 };

static int16_t alaw_values[256];
static uint8_t sound[SOUND_BYTES];
static int32_t page[2 * PAGE_FRAMES]; /* samples of 24 bits, interleaved */

/* The value of each A-law code, of 16 bits: even bits are inverted, then come a sign (1 is positive), three bits of a
   segment and four of a place in it (ITU-T G.711). */
static void make_alaw_values(void)
{
    for (int i = 0; i < 256; i++) {
        int code = i ^ 0x55, segment = code >> 4 & 7, place = (code & 15) * 16 + 8;
        int size = segment == 0 ? place : (place + 256) << (segment - 1);
        alaw_values[i] = (int16_t)(code & 0x80 ? size : -size);
    }
}

__attribute__((noinline))
static void decode_pcm16(const uint8_t *from, size_t samples, int32_t *out)
{
    for (size_t i = 0; i < samples; i++) out[i] = (int16_t)(from[2 * i] | from[2 * i + 1] << 8) * 256;
}

__attribute__((noinline))
static void decode_pcm24(const uint8_t *from, size_t samples, int32_t *out)
{
    for (size_t i = 0; i < samples; i++) out[i] = from[3 * i] | from[3 * i + 1] << 8 | (int8_t)from[3 * i + 2] * 65536;
}

__attribute__((noinline))
static void decode_alaw(const uint8_t *from, size_t samples, int32_t *out)
{
    for (size_t i = 0; i < samples; i++) out[i] = alaw_values[from[i]] * 256;
}

/* A decoder of IMA ADPCM, and the frame of the sound that it comes to next. */
struct ima { struct decoder decoder; size_t frame; };

/* Decodes the frames that come next, block by block. The first may stand inside a block. */
__attribute__((noinline))
static void decode_ima(struct ima *kept, size_t frames, int32_t *out)
{
    struct ima d = *kept;
    while (frames > 0) {
        const uint8_t *block = sound + d.frame / BLOCK_FRAMES * BLOCK_BYTES;
        size_t f = d.frame % BLOCK_FRAMES;
        size_t count = BLOCK_FRAMES - f < frames ? BLOCK_FRAMES - f : frames;
        size_t end = f + count;
        d.frame += count;
        frames -= count;
        if (f == 0) {
            d.decoder.predictor = (int16_t)(block[0] | block[1] << 8);
            d.decoder.index = block[2];
            *out++ = d.decoder.predictor * 256;
            f = 1;
        }
        for (; f < end; f++) {
            uint8_t codes = block[4 + (f - 1) / 2];
            *out++ = step(&d.decoder, f % 2 == 1 ? codes & 15 : codes >> 4) * 256;
        }
    }
    *kept = d;
}

enum kind { PCM16, PCM24, ALAW, IMA, KINDS };
static const char *const WORDS[KINDS] = { "pcm16", "pcm24", "alaw", "ima" };
static const size_t FRAME_BYTES[KINDS] = { 4, 6, 2, 0 };

static void make_sound(enum kind kind)
{
    uint32_t x = 1;
    for (size_t i = 0; i < SOUND_BYTES; i++) {
        x = x * 1664525u + 1013904223u;
        sound[i] = (uint8_t)(x >> 24);
        if (kind == IMA && i % BLOCK_BYTES == 2) sound[i] %= STEP_INDICES;
    }
}

/* Decodes one page, and answers the number of its samples. */
static size_t decode_page(enum kind kind, size_t first, size_t frames, struct ima *ima)
{
    const uint8_t *from = sound + first * FRAME_BYTES[kind];
    switch (kind) {
    case PCM16: decode_pcm16(from, 2 * frames, page); return 2 * frames;
    case PCM24: decode_pcm24(from, 2 * frames, page); return 2 * frames;
    case ALAW: decode_alaw(from, 2 * frames, page); return 2 * frames;
    default: decode_ima(ima, frames, page); return frames;
    }
}

int main(int argc, char **argv)
{
    if (argc != 3) return 2;
    int kind = 0;
    while (kind < KINDS && strcmp(argv[1], WORDS[kind])) kind++;
    if (kind == KINDS) return 2;
    size_t rounds = strtoul(argv[2], NULL, 10), samples = 0;
    size_t all = kind == IMA ? (size_t)SOUND_BYTES / BLOCK_BYTES * BLOCK_FRAMES : SOUND_BYTES / FRAME_BYTES[kind];
    uint32_t sum = 0;
    make_alaw_values();
    make_sound(kind);
    for (size_t r = 0; r < rounds; r++) {
        struct ima ima = { { 0, 0 }, 0 };
        for (size_t first = 0; first < all; first += PAGE_FRAMES) {
            size_t frames = all - first < PAGE_FRAMES ? all - first : PAGE_FRAMES;
            samples = decode_page(kind, first, frames, &ima);
            sum = sum * 31 + (uint32_t)page[samples - 1];
        }
    }
    for (size_t k = 0; k < samples; k++) sum = sum * 31 + (uint32_t)page[k];
    printf("%u\n", sum);
    return 0;
}
