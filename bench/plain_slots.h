/* A table of slots with tags, as `slot_tags` has it: the first slot whose bit a fetch_or finds clear, a fetch_add of its
   counter, its cell filled and emptied, and a fetch_and of its bit. */
#include <stdatomic.h>
#include <stdbool.h>
#include <stdint.h>

enum { SLOTS = 32 };

static const uint32_t last = UINT32_MAX;

static struct {
    _Atomic uint64_t words[1 + SLOTS]; /* the bits, and then a counter for each slot */
    struct { bool full; uint64_t job; } cells[SLOTS];
} table;

struct tag { uint32_t slot, number; bool full; };

static bool take(uint64_t job, struct tag *tag)
{
    for (uint32_t slot = 0; slot < SLOTS; slot++) {
        uint64_t found = atomic_fetch_or(&table.words[0], UINT64_C(1) << slot);
        if ((found >> slot & 1) == 0) {
            uint64_t before = atomic_fetch_add(&table.words[1 + slot], 1);
            table.cells[slot].full = true;
            table.cells[slot].job = job;
            *tag = (struct tag){ slot, (uint32_t)(before + 1), true };
            return true;
        }
    }
    return false;
}

static uint64_t lift(struct tag *tag)
{
    table.cells[tag->slot].full = false;
    tag->full = false;
    return table.cells[tag->slot].job;
}

static void give(struct tag tag)
{
    if (tag.number < last) atomic_fetch_and(&table.words[0], ~(UINT64_C(1) << tag.slot));
}
