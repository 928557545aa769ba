/* What `scenetool mix SCENE OUT` does, as plain C that works in blocks: reads a scene's script and its WAVE files, mixes them
   512 frames at a time, writes OUT block by block and prints the same line. bench/blocks.sh compares the two programs'
   instructions, and their bytes. What it reads is said in plain_scene.h.

   A block ends before the next edit, before the next frame at which a node's time begins or ends, and at the scene's end, so
   that the same nodes are pulled in all of its frames. In each block each of them is mixed once, after those that are
   attached to it. A file is brought to the scene's channels when it is read, and to the scene's rate in each block, by each
   sound that plays it. */
#include "plain_scene.h"

enum { BLOCK = 512 };

/* All nodes, each after those that it is attached to. It changes only where an output is attached. */
static struct { int node[NODES], count; bool seen[NODES]; } order;

static void visit(int n)
{
    const struct bus *bus = &scene.bus[scene.node[n].first_bus];
    order.seen[n] = true;
    for (int b = 0; b < scene.node[n].outputs; b++)
        if (bus[b].to >= 0 && bus[b].to < scene.nodes && !order.seen[bus[b].to]) visit(bus[b].to);
    order.node[order.count++] = n;
}

static void find_order(void)
{
    memset(&order, 0, sizeof order);
    for (int n = 0; n < scene.nodes; n++)
        if (!order.seen[n]) visit(n);
}

/* The nodes that are pulled, each after those that it is attached to, and the first frame at which that may change. */
static struct { int node[NODES], count; bool is[NODES + 1]; int64_t until; } pulled;

static void find_pulled(int64_t t)
{
    memset(&pulled, 0, sizeof pulled);
    pulled.is[scene.nodes] = true;
    pulled.until = INT64_MAX;
    for (int k = 0; k < scene.nodes; k++) {
        const struct node *node = &scene.node[order.node[k]];
        const struct bus *bus = &scene.bus[node->first_bus];
        if (node->from > t && node->from < pulled.until) pulled.until = node->from;
        if (node->until > t && node->until < pulled.until) pulled.until = node->until;
        if (!is_active(node, t)) continue;
        for (int b = 0; b < node->outputs; b++)
            if (bus[b].to >= 0 && pulled.is[bus[b].to]) pulled.is[order.node[k]] = true;
        if (pulled.is[order.node[k]]) pulled.node[pulled.count++] = order.node[k];
    }
}

/* A sample between two: `b` counts by `weight`, and `a` by the rest of the scene's rate. The samples are raised so that the sum
   has no sign and stays below 2^24 times the rate; the upper half of its product by the reciprocal is then the quotient. */
static inline int32_t blend(int32_t a, int32_t b, uint32_t rest, uint32_t weight, uint64_t reciprocal)
{
    const uint64_t sum = (uint64_t)(a + 8388608) * rest + (uint64_t)(b + 8388608) * weight;
    return (int32_t)((unsigned __int128)(sum + 1) * reciprocal >> 64) - 8388608;
}

/* A sound's next frames, all before its clip's end, from the file's rate to the scene's. */
static inline void convert(struct node *node, int64_t frames, const int channels, int32_t *out)
{
    const struct clip *clip = &scene.clip[node->resource];
    const uint32_t rate = (uint32_t)scene.rate, whole = clip->rate / rate, part = clip->rate % rate;
    const uint64_t reciprocal = UINT64_MAX / rate;
    uint64_t place = node->place;
    uint32_t weight = node->weight;
    for (int64_t f = 0; f < frames; f++) {
        const int32_t *x = clip->samples + place * (uint64_t)channels;
        for (int c = 0; c < channels; c++) *out++ = blend(x[c], x[c + channels], rate - weight, weight, reciprocal);
        place += whole;
        weight += part;
        if (weight >= rate) {
            weight -= rate;
            place++;
        }
    }
    node->place = place;
    node->weight = weight;
}

/* Writes as many of a sound's next frames as lie before its clip's end, or silence at the end, and gives how many those are. */
static int64_t play_part(struct node *node, int64_t frames, int32_t *out)
{
    const struct clip *clip = &scene.clip[node->resource];
    const size_t channels = (size_t)scene.channels;
    const int64_t left = (int64_t)(clip->length - node->cursor);
    if (left == 0) {
        if (node->looped) {
            frames = 1;
            seek(node, 0);
        }
        memset(out, 0, (size_t)frames * channels * sizeof *out);
        return frames;
    }
    if (frames > left) frames = left;
    if (clip->rate == scene.rate)
        memcpy(out, clip->samples + node->cursor * channels, (size_t)frames * channels * sizeof *out);
    else if (channels == 1)
        convert(node, frames, 1, out);
    else
        convert(node, frames, 2, out);
    node->cursor += (uint64_t)frames;
    if (frames == left && node->looped) seek(node, 0);
    return frames;
}

/* A sound's next frames: those of its clip where they are a run of it, else in `out`, or NULL where all are silence. */
static const int32_t *play(struct node *node, int64_t frames, int32_t *out)
{
    const struct clip *clip = &scene.clip[node->resource];
    const int64_t left = (int64_t)(clip->length - node->cursor);
    if (left == 0 && !node->looped) return NULL;
    if (clip->rate == scene.rate && frames < left) {
        const int32_t *run = clip->samples + node->cursor * (uint64_t)scene.channels;
        node->cursor += (uint64_t)frames;
        return run;
    }
    for (int64_t done = 0; done < frames;)
        done += play_part(node, frames - done, out + done * scene.channels);
    return out;
}

/* The sums of each input in a block. */
static int64_t sums[NODES + 1][BLOCK * 2];

static void settle(const int64_t *sum, size_t count, int32_t *out)
{
    for (size_t k = 0; k < count; k++) out[k] = sat24(sum[k]);
}

static void add_scaled(int64_t *sum, const int32_t *x, uint32_t gain, size_t count)
{
    for (size_t k = 0; k < count; k++) sum[k] += x[k] * (int64_t)gain >> 16;
}

static void mix_block(int64_t frames, int32_t *out)
{
    static int32_t room[BLOCK * 2];
    const size_t count = (size_t)(frames * scene.channels);
    memset(sums[scene.nodes], 0, count * sizeof **sums);
    for (int k = 0; k < pulled.count; k++)
        if (scene.node[pulled.node[k]].kind != SOUND) memset(sums[pulled.node[k]], 0, count * sizeof **sums);
    for (int k = pulled.count - 1; k >= 0; k--) {
        struct node *node = &scene.node[pulled.node[k]];
        const int32_t *x = room;
        if (node->kind == SOUND) x = play(node, frames, room);
        else settle(sums[pulled.node[k]], count, room);
        const struct bus *bus = &scene.bus[node->first_bus];
        for (int b = 0; x && b < node->outputs; b++)
            if (bus[b].to >= 0 && pulled.is[bus[b].to]) add_scaled(sums[bus[b].to], x, bus[b].gain, count);
    }
    settle(sums[scene.nodes], count, out);
}

/* Packs samples in `width` bytes each, and gives the sum of the bytes. */
static inline uint32_t pack(const int32_t *samples, size_t count, const int width, uint8_t *to)
{
    uint32_t total = 0;
    for (size_t k = 0; k < count; k++) {
        const uint32_t sample = (uint32_t)samples[k] >> (24 - 8 * width);
        for (int b = 0; b < width; b++) {
            *to++ = (uint8_t)(sample >> 8 * b);
            total += sample >> 8 * b & 255;
        }
    }
    return total;
}

static uint32_t peak_of(const int32_t *samples, size_t count, uint32_t peak)
{
    for (size_t k = 0; k < count; k++) {
        const uint32_t size = (uint32_t)abs(samples[k]);
        if (size > peak) peak = size;
    }
    return peak;
}

/* Makes the edits up to frame t, and finds anew what they, or the time, may have changed. */
static void reach(int64_t t, int *next)
{
    bool rewired = t == 0, changed = t == 0 || t >= pulled.until;
    for (; *next < scene.edits && scene.edit[*next].at <= t; ++*next) {
        const struct edit *edit = &scene.edit[*next];
        make_edit(edit);
        rewired |= edit->op == ATTACH;
        changed |= edit->op != GAIN && edit->op != SEEK && edit->op != LOOP;
    }
    if (rewired) find_order();
    if (changed) find_pulled(t);
}

static void write_frames(FILE *file, uint32_t *peak, uint32_t *sum)
{
    static int32_t block[BLOCK * 2];
    static uint8_t bytes[BLOCK * 2 * 3];
    int next = 0;
    for (int64_t t = 0, end; t < scene.length; t = end) {
        reach(t, &next);
        end = t + BLOCK < scene.length ? t + BLOCK : scene.length;
        if (end > pulled.until) end = pulled.until;
        if (next < scene.edits && end > scene.edit[next].at) end = scene.edit[next].at;
        mix_block(end - t, block);
        const size_t count = (size_t)((end - t) * scene.channels);
        *peak = peak_of(block, count, *peak);
        *sum += scene.width == 16 ? pack(block, count, 2, bytes) : pack(block, count, 3, bytes);
        fwrite(bytes, (size_t)scene.width / 8, count, file);
    }
}
