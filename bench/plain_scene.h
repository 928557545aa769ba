/* What the plain C programs for the job of `scenetool mix SCENE OUT` share: the reading of a scene's script and of its WAVE
   files, the edits, and the header of OUT. plain_mix.c mixes frame by frame, block_mix.c in blocks.

   It reads what the workloads of bench/ hold, and trusts it: scripts of `[[table]]` and `key = value` lines that
   scenetool takes, and WAVE files of PCM, G.711 and IMA ADPCM whose chunks lie whole in the file. Statuses: 0 done,
   2 other words, 4 a file that isn't there, 1 anything else. */
#include "plain_wave.h"

enum { RESOURCES = 64, NODES = 128, BUSES = 256, EDITS = 4096, NAME = 65 };
enum kind { SOUND, GROUP, SPLITTER };
enum op { ATTACH, DETACH, GAIN, START, STOP, FROM, UNTIL, SEEK, LOOP };
static const char *const OPS[] = { "attach", "detach", "gain", "start", "stop", "from", "until", "seek", "loop" };

struct clip {
    char name[NAME], file[256];
    uint32_t rate;
    uint64_t frames; /* of the file, at its own rate */
    uint64_t length; /* in frames of the scene */
    int32_t *samples; /* the file's frames in the scene's channels, interleaved, and a frame of silence after them */
};

struct node {
    char name[NAME];
    enum kind kind;
    int resource, first_bus, outputs;
    bool started, looped;
    int64_t from, until;
    uint64_t cursor, place; /* the frame of the scene's clip, and that of the file at or before it */
    uint32_t weight; /* what part of the way to the file's next frame the cursor is, by the scene's rate */
};

struct bus { int node, to; uint32_t gain; };
struct edit { enum op op; int64_t at, value; int row, node, out, to; };

/* One row of the script, before it is known what its table makes of it. */
struct row {
    char name[NAME], file[256], kind[16], resource[NAME], node[NAME], to[NAME], op[16];
    int64_t outputs, from, until, out, gain, at, value;
    bool started, looped;
};

static struct {
    int64_t version, rate, channels, width, length;
    int resources, nodes, buses, edits;
    struct clip clip[RESOURCES];
    struct node node[NODES + 1]; /* the endpoint is the one after the last */
    struct bus bus[BUSES];
    struct edit edit[EDITS];
} scene;

/* ---- The script ---- */

static int node_named(const char *name)
{
    for (int n = 0; n < scene.nodes; n++)
        if (!strcmp(scene.node[n].name, name)) return n;
    return strcmp(name, "endpoint") ? -1 : scene.nodes;
}

static void add_node(const struct row *row)
{
    if (scene.nodes == NODES) fail(1, "too many nodes", row->name);
    struct node *node = &scene.node[scene.nodes++];
    *node = (struct node){ .first_bus = scene.buses, .outputs = 1, .started = row->started, .looped = row->looped,
                           .from = row->from, .until = row->until };
    strcpy(node->name, row->name);
    node->kind = !strcmp(row->kind, "sound") ? SOUND : !strcmp(row->kind, "group") ? GROUP : SPLITTER;
    if (node->kind == SPLITTER) node->outputs = (int)row->outputs;
    if (node->kind == SOUND)
        while (strcmp(scene.clip[node->resource].name, row->resource))
            if (++node->resource == scene.resources) fail(1, "no such resource", row->resource);
    for (int k = 0; k < node->outputs; k++) {
        if (scene.buses == BUSES) fail(1, "too many buses", row->name);
        scene.bus[scene.buses++] = (struct bus){ scene.nodes - 1, -1, 65536 };
    }
}

/* Takes a whole row into the scene. */
static void add_row(const char *table, const struct row *row)
{
    int node = *row->node ? node_named(row->node) : -1, to = *row->to ? node_named(row->to) : -1;
    if (!strcmp(table, "resource")) {
        if (scene.resources == RESOURCES) fail(1, "too many resources", row->name);
        struct clip *clip = &scene.clip[scene.resources++];
        strcpy(clip->name, row->name);
        strcpy(clip->file, row->file);
    } else if (!strcmp(table, "node")) {
        add_node(row);
    } else if (node < 0 || node == scene.nodes) {
        fail(1, "no such node", row->node);
    } else if (!strcmp(table, "bus")) {
        struct bus *bus = &scene.bus[scene.node[node].first_bus + row->out];
        if (*row->to) bus->to = to;
        bus->gain = (uint32_t)row->gain;
    } else {
        if (scene.edits == EDITS) fail(1, "too many edits", row->node);
        int op = 0;
        while (strcmp(OPS[op], row->op))
            if (++op > LOOP) fail(1, "no such op", row->op);
        scene.edit[scene.edits] = (struct edit){ (enum op)op, row->at, row->value, scene.edits, node, (int)row->out, to };
        scene.edits++;
    }
}

/* The room that a row has for a key's text, if it is one of those. */
static char *text_of(struct row *row, const char *key, size_t *room)
{
    const struct { const char *key; char *text; size_t room; } texts[] = {
        { "name", row->name, sizeof row->name }, { "file", row->file, sizeof row->file },
        { "kind", row->kind, sizeof row->kind }, { "resource", row->resource, sizeof row->resource },
        { "node", row->node, sizeof row->node }, { "to", row->to, sizeof row->to }, { "op", row->op, sizeof row->op },
    };
    for (size_t k = 0; k < sizeof texts / sizeof *texts; k++)
        if (!strcmp(texts[k].key, key)) {
            *room = texts[k].room;
            return texts[k].text;
        }
    return NULL;
}

/* The place of a key's number, in the scene or in a row. */
static int64_t *number_of(struct row *row, bool in_scene, const char *key)
{
    const struct { const char *key; int64_t *number; bool in_scene; } numbers[] = {
        { "version", &scene.version, true }, { "rate", &scene.rate, true }, { "channels", &scene.channels, true },
        { "width", &scene.width, true }, { "length", &scene.length, true }, { "outputs", &row->outputs, false },
        { "from", &row->from, false }, { "until", &row->until, false }, { "out", &row->out, false },
        { "gain", &row->gain, false }, { "at", &row->at, false }, { "value", &row->value, false },
    };
    for (size_t k = 0; k < sizeof numbers / sizeof *numbers; k++)
        if (numbers[k].in_scene == in_scene && !strcmp(numbers[k].key, key)) return numbers[k].number;
    return NULL;
}

static void set_key(struct row *row, bool in_scene, const char *key, char *value)
{
    size_t room;
    char *text = text_of(row, key, &room);
    int64_t *number = number_of(row, in_scene, key);
    if (text && *value == '"') {
        char *end = strchr(value + 1, '"');
        if (!end || (size_t)(end - value) > room) fail(1, "no text", value);
        memcpy(text, value + 1, (size_t)(end - value - 1));
        text[end - value - 1] = 0;
    } else if (!strcmp(key, "started") || !strcmp(key, "loop")) {
        *(*key == 's' ? &row->started : &row->looped) = !strncmp(value, "true", 4);
    } else if (number) {
        *number = strtoll(value, NULL, 10);
    } else if (strcmp(key, "editor")) { /* an edit's editor says nothing to a mix */
        fail(1, "no such key", key);
    }
}

/* The order in which edits are made: by their frames, and at one frame by their rows. */
static int by_time(const void *a, const void *b)
{
    const struct edit *x = a, *y = b;
    return x->at != y->at ? (x->at < y->at ? -1 : 1) : (x->row < y->row ? -1 : 1);
}

static void read_script(char *text)
{
    const struct row blank = { .until = 16777216, .gain = 65536, .outputs = 2, .started = true };
    struct row row = blank;
    char table[16] = "";
    for (char *line = text, *next; *line; line = next) {
        next = line + strcspn(line, "\n");
        if (*next) *next++ = 0;
        char key[16], header[16];
        int value = 0;
        if (sscanf(line, " [[%15[a-z]]]", header) == 1) {
            if (*table) add_row(table, &row);
            row = blank;
            strcpy(table, header);
        } else if (sscanf(line, " %15[a-z] = %n", key, &value) == 1 && value) {
            set_key(&row, !*table, key, line + value);
        } else if (line[strspn(line, " \t\r")] != '#' && line[strspn(line, " \t\r")]) {
            fail(1, "no line of a script", line);
        }
    }
    if (*table) add_row(table, &row);
    qsort(scene.edit, (size_t)scene.edits, sizeof *scene.edit, by_time);
}

/* ---- The clips and the nodes ---- */

static void read_clip(struct clip *clip)
{
    const unsigned channels = (unsigned)scene.channels;
    size_t size;
    uint8_t *bytes = read_file(clip->file, &size);
    struct wave w = find_chunks(bytes, size, clip->file);
    int32_t *decoded = decode(&w, &clip->frames, clip->file);
    clip->samples = to_channels(decoded, clip->frames, w.channels, channels);
    memset(clip->samples + clip->frames * channels, 0, channels * sizeof *clip->samples);
    clip->rate = w.rate;
    clip->length = (clip->frames * (uint64_t)scene.rate + w.rate - 1) / w.rate;
    free(bytes);
}

static int32_t sat24(int64_t x)
{
    return x < -8388608 ? -8388608 : x > 8388607 ? 8388607 : (int32_t)x;
}

static bool is_active(const struct node *node, int64_t t)
{
    return node->started && node->from <= t && t < node->until;
}

/* Sets a sound's cursor, and where that is in the file. */
static void seek(struct node *node, uint64_t cursor)
{
    const struct clip *clip = &scene.clip[node->resource];
    node->cursor = cursor < clip->length ? cursor : clip->length;
    node->place = node->cursor * clip->rate / (uint64_t)scene.rate;
    node->weight = (uint32_t)(node->cursor * clip->rate % (uint64_t)scene.rate);
}

static void make_edit(const struct edit *e)
{
    struct node *node = &scene.node[e->node];
    struct bus *bus = &scene.bus[node->first_bus + e->out];
    switch (e->op) {
    case ATTACH: bus->to = e->to; break;
    case DETACH: bus->to = -1; break;
    case GAIN: bus->gain = (uint32_t)e->value; break;
    case START: node->started = true; break;
    case STOP: node->started = false; break;
    case FROM: node->from = e->value; break;
    case UNTIL: node->until = e->value; break;
    case SEEK: seek(node, (uint64_t)e->value); break;
    case LOOP: node->looped = e->value; break;
    }
}

/* ---- The output ---- */

static void put(uint8_t *to, uint32_t number, int bytes)
{
    for (int k = 0; k < bytes; k++) to[k] = (uint8_t)(number >> 8 * k);
}

static void write_header(FILE *file, uint32_t data)
{
    const uint32_t align = (uint32_t)(scene.channels * scene.width / 8), rate = (uint32_t)scene.rate;
    uint8_t header[44] = "RIFF....WAVEfmt ....................data....";
    put(header + 4, 36 + data + (data & 1), 4);
    put(header + 16, 16, 4);
    put(header + 20, 1, 2);
    put(header + 22, (uint32_t)scene.channels, 2);
    put(header + 24, rate, 4);
    put(header + 28, rate * align, 4);
    put(header + 32, align, 2);
    put(header + 34, (uint32_t)scene.width, 2);
    put(header + 40, data, 4);
    fwrite(header, 1, sizeof header, file);
}

/* Mixes and writes all frames, and gives their peak and the sum of their bytes. Each program has its own. */
static void write_frames(FILE *file, uint32_t *peak, uint32_t *sum);

int main(int argc, char **argv)
{
    if (argc != 4 || strcmp(argv[1], "mix")) return 2;
    size_t size;
    char *text = (char *)read_file(argv[2], &size);
    read_script(text);
    free(text);
    for (int r = 0; r < scene.resources; r++) read_clip(&scene.clip[r]);

    FILE *file = fopen(argv[3], "wb");
    if (!file) fail(1, "not written", argv[3]);
    const uint32_t data = (uint32_t)(scene.length * scene.channels * scene.width / 8);
    uint32_t peak = 0, sum = 0;
    write_header(file, data);
    write_frames(file, &peak, &sum);
    if (data & 1) fputc(0, file);
    if (ferror(file) || fclose(file)) fail(1, "not written", argv[3]);
    printf("frames %lld rate %lld channels %lld width %lld bytes %u peak %u sum %u\n", (long long)scene.length,
           (long long)scene.rate, (long long)scene.channels, (long long)scene.width, 44 + data + (data & 1), peak, sum);
    return 0;
}
