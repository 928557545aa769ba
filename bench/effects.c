/* Effects in plain C: fx_bench's job by loops that go frame by frame through a block, one effect after the other. A delay
 * has a ring of frames, a fade finds each gain by a division. It trusts its words.
 *
 * Usage: effects EFFECTS BLOCKS, as fx_bench. */
#include <stdint.h>
#include <stdio.h>
#include <stdlib.h>
#include <string.h>

enum { FRAMES = 512, MOST_EFFECTS = 64 };

struct effect {
    char kind;
    uint32_t a, b, c, d; /* the numbers of the word */
    int32_t *ring;
    uint32_t place;
};

static int32_t sat24(int64_t x) { return x < -8388608 ? -8388608 : x > 8388607 ? 8388607 : (int32_t)x; }
static int32_t scale(int32_t x, uint32_t gain) { return (int32_t)(((int64_t)x * gain) >> 16); }

static void delay(struct effect *e, int32_t *x) {
    for (size_t t = 0; t < FRAMES; t++) {
        for (int c = 0; c < 2; c++) {
            int32_t *cell = &e->ring[2 * e->place + c];
            int32_t in = x[2 * t + c], back = *cell;
            *cell = sat24((int64_t)in + scale(back, e->b));
            x[2 * t + c] = sat24((int64_t)in + back);
        }
        if (++e->place == e->a)
            e->place = 0;
    }
}

static void pan(const struct effect *e, int32_t *x) {
    uint32_t left = 131072 - 2 * e->a, right = 2 * e->a;
    if (left > 65536)
        left = 65536;
    if (right > 65536)
        right = 65536;
    for (size_t t = 0; t < FRAMES; t++) {
        x[2 * t] = scale(x[2 * t], left);
        x[2 * t + 1] = scale(x[2 * t + 1], right);
    }
}

static uint32_t fade_gain(const struct effect *e, uint32_t t) {
    if (t < e->a)
        return e->c;
    if (t >= e->b)
        return e->d;
    int64_t height = ((int64_t)e->d - e->c) * (t - e->a), span = e->b - e->a, gain = height / span;
    return (uint32_t)(e->c + (height % span < 0 ? gain - 1 : gain));
}

static void fade(const struct effect *e, uint32_t start, int32_t *x) {
    for (uint32_t t = 0; t < FRAMES; t++) {
        uint32_t gain = fade_gain(e, start + t);
        x[2 * t] = sat24(scale(x[2 * t], gain));
        x[2 * t + 1] = sat24(scale(x[2 * t + 1], gain));
    }
}

static void level(const struct effect *e, int32_t *x) {
    for (size_t i = 0; i < 2 * FRAMES; i++)
        x[i] = sat24(scale(x[i], e->a));
}

static size_t read_effects(char *words, struct effect *effects) {
    size_t n = 0;
    for (char *word = strtok(words, "+"); word && strcmp(word, "none"); word = strtok(NULL, "+")) {
        struct effect *e = &effects[n++];
        e->kind = word[0];
        sscanf(strchr(word, ':'), ":%u:%u:%u:%u", &e->a, &e->b, &e->c, &e->d);
        if (e->kind == 'd')
            e->ring = calloc(2 * (size_t)e->a, sizeof *e->ring);
    }
    return n;
}

int main(int argc, char **argv) {
    if (argc != 3)
        return 1;
    static struct effect effects[MOST_EFFECTS];
    static int32_t x[2 * FRAMES];
    size_t n = read_effects(argv[1], effects);
    uint32_t blocks = (uint32_t)strtoul(argv[2], NULL, 10), state = 1, sum = 0;
    for (uint32_t block = 0; block < blocks; block++) {
        for (size_t i = 0; i < 2 * FRAMES; i++) {
            state = state * 1664525 + 1013904223;
            x[i] = sat24((int64_t)(state >> 7) - 16777216);
        }
        for (size_t i = 0; i < n; i++)
            switch (effects[i].kind) {
            case 'd': delay(&effects[i], x); break;
            case 'p': pan(&effects[i], x); break;
            case 'f': fade(&effects[i], FRAMES * block, x); break;
            default: level(&effects[i], x);
            }
        sum = sum * 31 + (uint32_t)x[2 * FRAMES - 1];
    }
    for (size_t i = 0; i < 2 * FRAMES; i++)
        sum = sum * 31 + (uint32_t)x[i];
    printf("%u\n", sum);
    return 0;
}
