/* What `scenetool mix SCENE OUT` does, as plain C: reads a scene's script and its WAVE files, mixes them frame by frame,
   writes OUT and prints the same line. bench/run.sh compares the two programs' times, and their bytes. What it reads is
   said in plain_scene.h. */
#include "plain_scene.h"

enum { BLOCK = 512 }; /* the frames that are written at once */

/* Moves the cursor of a sound that was pulled to its next frame. */
static void advance(struct node *node)
{
    const struct clip *clip = &scene.clip[node->resource];
    if (node->cursor + 1 >= clip->length) {
        seek(node, node->looped ? 0 : clip->length);
        return;
    }
    const uint32_t rate = (uint32_t)scene.rate;
    node->cursor++;
    node->place += clip->rate / rate;
    node->weight += clip->rate % rate;
    if (node->weight >= rate) {
        node->weight -= rate;
        node->place++;
    }
}

/* A sound's output in one channel: between two frames of its file, or silence at its end. */
static int32_t play(const struct node *node, unsigned channel)
{
    const struct clip *clip = &scene.clip[node->resource];
    if (node->cursor >= clip->length) return 0;
    const int32_t *x = clip->samples + node->place * (uint64_t)scene.channels + channel;
    if (!node->weight) return *x;
    return (int32_t)floor_div(*x * (scene.rate - node->weight) + (int64_t)x[scene.channels] * node->weight, scene.rate);
}

/* The nodes that are pulled, each after those that are attached to it, and the first frame at which that may change. */
static struct { int node[NODES], count; bool seen[NODES]; int64_t until; } pulled;

static void visit(int to, int64_t t)
{
    for (int b = 0; b < scene.buses; b++) {
        const int from = scene.bus[b].node;
        if (scene.bus[b].to != to || pulled.seen[from] || !is_active(&scene.node[from], t)) continue;
        pulled.seen[from] = true;
        visit(from, t);
        pulled.node[pulled.count++] = from;
    }
}

static void find_pulled(int64_t t)
{
    memset(&pulled, 0, sizeof pulled);
    visit(scene.nodes, t);
    pulled.until = INT64_MAX;
    for (int n = 0; n < scene.nodes; n++) {
        const int64_t times[2] = { scene.node[n].from, scene.node[n].until };
        for (int k = 0; k < 2; k++)
            if (times[k] > t && times[k] < pulled.until) pulled.until = times[k];
    }
}

/* Mixes a frame of the nodes that are pulled. */
static void mix_frame(int32_t *out)
{
    static int64_t sums[NODES + 1][2];
    const unsigned channels = (unsigned)scene.channels;
    memset(sums, 0, (size_t)(scene.nodes + 1) * sizeof *sums);
    for (int k = 0; k < pulled.count; k++) {
        struct node *node = &scene.node[pulled.node[k]];
        const struct bus *bus = &scene.bus[node->first_bus];
        for (unsigned c = 0; c < channels; c++) {
            const int64_t output = node->kind == SOUND ? play(node, c) : sat24(sums[pulled.node[k]][c]);
            for (int b = 0; b < node->outputs; b++)
                if (bus[b].to >= 0) sums[bus[b].to][c] += output * bus[b].gain >> 16;
        }
        if (node->kind == SOUND) advance(node);
    }
    for (unsigned c = 0; c < channels; c++) out[c] = sat24(sums[scene.nodes][c]);
}

/* Mixes and writes all frames, and gives their peak and the sum of their bytes. */
static void write_frames(FILE *file, uint32_t *peak, uint32_t *sum)
{
    static uint8_t bytes[BLOCK * 2 * 3];
    const int width = (int)scene.width / 8, channels = (int)scene.channels;
    size_t filled = 0;
    int next = 0;
    for (int64_t t = 0; t < scene.length; t++) {
        const int first = next;
        while (next < scene.edits && scene.edit[next].at <= t) make_edit(&scene.edit[next++]);
        if (t == 0 || next != first || t >= pulled.until) find_pulled(t);
        int32_t frame[2];
        mix_frame(frame);
        for (int c = 0; c < channels; c++, filled += (size_t)width) {
            const uint32_t size = (uint32_t)abs(frame[c]);
            if (size > *peak) *peak = size;
            put(bytes + filled, (uint32_t)(width == 2 ? frame[c] >> 8 : frame[c]), width);
        }
        if ((t + 1) % BLOCK && t + 1 < scene.length) continue;
        for (size_t k = 0; k < filled; k++) *sum += bytes[k];
        fwrite(bytes, 1, filled, file);
        filled = 0;
    }
}
