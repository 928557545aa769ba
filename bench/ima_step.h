/* A step of the IMA ADPCM decoder, for the plain programs of this directory. */
#include <stdint.h>

enum { STEP_INDICES = 89 };

static const uint16_t STEPS[STEP_INDICES] = {
    7, 8, 9, 10, 11, 12, 13, 14, 16, 17, 19, 21, 23, 25, 28, 31, 34, 37, 41, 45, 50, 55, 60, 66, 73,
    80, 88, 97, 107, 118, 130, 143, 157, 173, 190, 209, 230, 253, 279, 307, 337, 371, 408, 449, 494,
    544, 598, 658, 724, 796, 876, 963, 1060, 1166, 1282, 1411, 1552, 1707, 1878, 2066, 2272, 2499,
    2749, 3024, 3327, 3660, 4026, 4428, 4871, 5358, 5894, 6484, 7132, 7845, 8630, 9493, 10442,
    11487, 12635, 13899, 15289, 16818, 18500, 20350, 22385, 24623, 27086, 29794, 32767,
};
static const int8_t CHANGES[8] = { -1, -1, -1, -1, 2, 4, 6, 8 };

struct decoder { int predictor, index; };

/* As decoders in use have it: a test for each bit of the code. */
static inline int16_t step(struct decoder *d, unsigned code)
{
    int size = STEPS[d->index];
    int difference = size >> 3;
    if (code & 4) difference += size;
    if (code & 2) difference += size >> 1;
    if (code & 1) difference += size >> 2;
    int p = code & 8 ? d->predictor - difference : d->predictor + difference;
    d->predictor = p < -32768 ? -32768 : p > 32767 ? 32767 : p;
    int i = d->index + CHANGES[code & 7];
    d->index = i < 0 ? 0 : i > 88 ? 88 : i;
    return (int16_t)d->predictor;
}
