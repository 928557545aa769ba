/* The reading of WAVE files by the plain C programs of this directory: PCM, G.711 and IMA ADPCM, whose chunks lie whole in
   the file. A fault ends the program: with status 4 a file that isn't there, and with 1 anything else. */
#include "ima_step.h"
#include <stdbool.h>
#include <stdint.h>
#include <stdio.h>
#include <stdlib.h>
#include <string.h>

static void fail(int status, const char *what, const char *name)
{
    fprintf(stderr, "%s: %s\n", what, name);
    exit(status);
}

static uint8_t *read_file(const char *name, size_t *size)
{
    FILE *file = fopen(name, "rb");
    if (!file) fail(4, "absent", name);
    fseek(file, 0, SEEK_END);
    *size = (size_t)ftell(file);
    rewind(file);
    uint8_t *bytes = malloc(*size + 1);
    if (!bytes || fread(bytes, 1, *size, file) != *size) fail(1, "not read", name);
    bytes[*size] = 0;
    fclose(file);
    return bytes;
}

static uint32_t le(const uint8_t *bytes, int count)
{
    uint32_t number = 0;
    for (int k = 0; k < count; k++) number |= (uint32_t)bytes[k] << 8 * k;
    return number;
}

/* What a file's chunks say of its sound. */
struct wave { unsigned tag, channels, rate, align; const uint8_t *data; uint64_t size, fact; };

static struct wave find_chunks(const uint8_t *bytes, size_t size, const char *name)
{
    struct wave w = { 0 };
    if (size < 12 || memcmp(bytes, "RIFF", 4) || memcmp(bytes + 8, "WAVE", 4)) fail(1, "no RIFF WAVE", name);
    for (size_t at = 12; at + 8 <= size;) {
        const uint8_t *body = bytes + at + 8;
        size_t left = size - at - 8, length = le(bytes + at + 4, 4);
        if (length > left) length = left;
        if (!memcmp(bytes + at, "fmt ", 4) && length >= 16 && !w.align) {
            w.tag = le(body, 2);
            w.channels = le(body + 2, 2);
            w.rate = le(body + 4, 4);
            w.align = le(body + 12, 2);
            if (w.tag == 0xFFFE && length >= 40) w.tag = le(body + 24, 2);
        } else if (!memcmp(bytes + at, "data", 4) && !w.data) {
            w.data = body;
            w.size = length;
        } else if (!memcmp(bytes + at, "fact", 4) && length >= 4 && !w.fact) {
            w.fact = le(body, 4);
        }
        at += 8 + length + (length & 1);
    }
    if (!w.data || !w.rate || w.channels < 1 || w.channels > 8 || w.align < w.channels) fail(1, "no sound", name);
    return w;
}

static inline int32_t from_pcm(const uint8_t *b, unsigned bytes)
{
    switch (bytes) {
    case 1: return (b[0] - 128) * 65536;
    case 2: return (int16_t)le(b, 2) * 256;
    case 3: return (int32_t)(le(b, 3) << 8) >> 8;
    default: return (int32_t)le(b, 4) >> 8;
    }
}

static int32_t from_alaw(uint8_t code)
{
    unsigned c = code ^ 0x55, e = c >> 4 & 7, m = c & 15;
    int32_t size = (int32_t)(e ? (16 * m + 264) << (e - 1) : 16 * m + 8);
    return (c & 0x80 ? size : -size) * 256;
}

static int32_t from_ulaw(uint8_t code)
{
    unsigned c = (uint8_t)~code, e = c >> 4 & 7, m = c & 15;
    int32_t size = (int32_t)((8 * m + 132) << e) - 132;
    return (c & 0x80 ? -size : size) * 256;
}

static uint64_t ima_frames(uint64_t bytes, unsigned channels)
{
    return bytes < 4 * channels ? 0 : 1 + 8 * ((bytes - 4 * channels) / (4 * channels));
}

/* Decodes a block's frames, interleaved: one, and whole words of eight. The words of the channels come in turn. */
static void decode_ima(const uint8_t *block, uint64_t frames, unsigned channels, int32_t *out, const char *name)
{
    for (unsigned c = 0; c < channels; c++) {
        struct decoder d = { (int16_t)le(block + 4 * c, 2), block[4 * c + 2] };
        if (d.index > 88) fail(1, "step index", name);
        const uint8_t *codes = block + 4 * channels + 4 * c;
        out[c] = d.predictor * 256;
        for (uint64_t f = 1; f < frames; f += 8, codes += 4 * channels) {
            uint32_t word = le(codes, 4); /* the first code in its lowest bits */
            for (uint64_t k = f; k < f + 8; k++, word >>= 4) out[k * channels + c] = step(&d, word & 15) * 256;
        }
    }
}

/* Samples of PCM, by a loop for each width. */
static void decode_pcm(const uint8_t *data, uint64_t count, unsigned bytes, int32_t *samples)
{
    switch (bytes) {
    case 1: for (uint64_t k = 0; k < count; k++) samples[k] = from_pcm(data + k, 1); break;
    case 2: for (uint64_t k = 0; k < count; k++) samples[k] = from_pcm(data + 2 * k, 2); break;
    case 3: for (uint64_t k = 0; k < count; k++) samples[k] = from_pcm(data + 3 * k, 3); break;
    default: for (uint64_t k = 0; k < count; k++) samples[k] = from_pcm(data + 4 * k, 4); break;
    }
}

/* The file's frames as 24-bit samples in its own channels, interleaved. */
static int32_t *decode(const struct wave *w, uint64_t *frames, const char *name)
{
    const uint64_t whole = w->size / w->align, rest = w->size % w->align, per_block = ima_frames(w->align, w->channels);
    *frames = w->tag == 17 ? whole * per_block + ima_frames(rest, w->channels) : whole;
    int32_t *samples = malloc((*frames + 1) * w->channels * sizeof *samples);
    if (!samples) fail(1, "no memory", name);
    if (w->tag == 17) {
        for (uint64_t b = 0; b <= whole; b++) {
            uint64_t count = b < whole ? per_block : ima_frames(rest, w->channels);
            if (count) decode_ima(w->data + b * w->align, count, w->channels, samples + b * per_block * w->channels, name);
        }
        if (w->fact && w->fact < *frames) *frames = w->fact;
        return samples;
    }
    const uint64_t count = *frames * w->channels;
    switch (w->tag) {
    case 1: decode_pcm(w->data, count, w->align / w->channels, samples); break;
    case 6: for (uint64_t k = 0; k < count; k++) samples[k] = from_alaw(w->data[k]); break;
    case 7: for (uint64_t k = 0; k < count; k++) samples[k] = from_ulaw(w->data[k]); break;
    default: fail(1, "no tag that is read", name);
    }
    return samples;
}

static int64_t floor_div(int64_t a, int64_t b)
{
    return a / b - (a % b < 0);
}

/* Brings frames from the file's channels to the scene's, in place where they become fewer. */
static int32_t *to_channels(int32_t *in, uint64_t frames, unsigned from, unsigned to)
{
    if (from == to) return in;
    int32_t *out = to > from ? malloc((frames + 1) * to * sizeof *out) : in;
    if (!out) fail(1, "no memory", "channels");
    for (uint64_t f = 0; f < frames; f++) {
        if (to == 1) {
            int64_t sum = 0;
            for (unsigned c = 0; c < from; c++) sum += in[f * from + c];
            out[f] = (int32_t)floor_div(sum, from);
        } else {
            const int32_t left = in[f * from], right = in[f * from + (from > 1)];
            out[2 * f] = left;
            out[2 * f + 1] = right;
        }
    }
    if (out != in) free(in);
    return out;
}
