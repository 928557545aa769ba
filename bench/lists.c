/* What `list_bench` does, in C with <stdatomic.h>: the same words, the same atomic steps in the same order, all sequentially
   consistent. It trusts its callers: nothing stops an edit of a bus that is attached already, or a second reader.
   Usage: lists visits|edits|beside BUSES ROUNDS */
#include <pthread.h>
#include <sched.h>
#include <stdatomic.h>
#include <stdbool.h>
#include <stdint.h>
#include <stdio.h>
#include <stdlib.h>
#include <string.h>

enum { MOST_BUSES = 256, NO_FEED = 0 };

/* The list for `buses` buses: the link, the flag and the reference count of each, then the dummy's link, the count of edits
   and the step counter. The number `buses` is the dummy, and the end. A cell with 0 in it is empty. */
struct list {
    uint32_t buses;
    _Atomic uint64_t words[3 * MOST_BUSES + 3];
    uint32_t cells[MOST_BUSES];
};

static inline _Atomic uint64_t *link_of(struct list *l, uint32_t bus) { return &l->words[3 * bus]; }
static inline _Atomic uint64_t *flag_of(struct list *l, uint32_t bus) { return &l->words[3 * bus + 1]; }
static inline _Atomic uint64_t *references_of(struct list *l, uint32_t bus) { return &l->words[3 * bus + 2]; }
static inline _Atomic uint64_t *count_of(struct list *l) { return &l->words[3 * l->buses + 1]; }
static inline _Atomic uint64_t *steps_of(struct list *l) { return &l->words[3 * l->buses + 2]; }

/* Exchanges what is in the bus's cell. A cell is taken, and goes back, at a load of a word. */
static uint32_t exchange_cell(struct list *l, uint32_t bus, uint32_t feed)
{
    uint32_t had = l->cells[bus];
    l->cells[bus] = feed;
    return had;
}

static void move_cell(struct list *l, uint32_t bus)
{
    (void)atomic_load(link_of(l, bus));
}

/* The editor, with its copy of the links. */
struct editor { struct list *list; uint64_t edits; uint32_t links[MOST_BUSES + 1]; };

__attribute__((noinline))
static void attach(struct editor *e, uint32_t bus, uint32_t feed)
{
    struct list *l = e->list;
    uint32_t first = e->links[l->buses];
    atomic_store(link_of(l, bus), first);
    e->links[bus] = first;
    move_cell(l, bus);
    exchange_cell(l, bus, feed);
    move_cell(l, bus);
    atomic_store(link_of(l, l->buses), bus);
    e->links[l->buses] = bus;
    atomic_store(flag_of(l, bus), 1);
    atomic_store(count_of(l), ++e->edits);
}

__attribute__((noinline))
static uint32_t detach(struct editor *e, uint32_t bus)
{
    struct list *l = e->list;
    uint32_t before = l->buses;
    atomic_store(flag_of(l, bus), 0);
    while (e->links[before] != bus) before = e->links[before];
    atomic_store(link_of(l, before), e->links[bus]);
    e->links[before] = e->links[bus];
    while (atomic_load(steps_of(l)) != 0) sched_yield();
    while (atomic_load(references_of(l, bus)) != 0) sched_yield();
    move_cell(l, bus);
    uint32_t feed = exchange_cell(l, bus, NO_FEED);
    move_cell(l, bus);
    atomic_store(count_of(l), ++e->edits);
    return feed;
}

/* The pass: the bus that it holds, or the dummy, and that bus's feed, or none. */
struct pass { struct list *list; uint64_t from, until; uint32_t held, feed; bool ended; };

__attribute__((noinline))
static void begin(struct pass *p)
{
    p->from = atomic_load(count_of(p->list));
    p->ended = false;
}

static void let_go(struct pass *p)
{
    if (p->feed != NO_FEED) {
        exchange_cell(p->list, p->held, p->feed);
        move_cell(p->list, p->held);
    }
    p->feed = NO_FEED;
    if (p->held < p->list->buses) atomic_fetch_sub(references_of(p->list, p->held), 1);
}

/* The feed of the next attached bus, or none at the end. */
__attribute__((noinline))
static uint32_t next(struct pass *p)
{
    struct list *l = p->list;
    while (!p->ended) {
        atomic_fetch_add(steps_of(l), 1);
        uint32_t bus = (uint32_t)atomic_load(link_of(l, p->held));
        if (bus < l->buses) atomic_fetch_add(references_of(l, bus), 1);
        let_go(p);
        atomic_fetch_sub(steps_of(l), 1);
        p->held = bus;
        p->ended = bus == l->buses;
        if (!p->ended && atomic_load(flag_of(l, bus)) != 0) {
            move_cell(l, bus);
            return p->feed = exchange_cell(l, bus, NO_FEED);
        }
    }
    return NO_FEED;
}

__attribute__((noinline))
static void end(struct pass *p)
{
    p->until = atomic_load(count_of(p->list));
    let_go(p);
    p->held = p->list->buses;
}

static uint32_t visit(struct pass *p, uint32_t sum)
{
    uint32_t feed;
    begin(p);
    while ((feed = next(p)) != NO_FEED) sum = sum * 31 + feed;
    end(p);
    return sum;
}

static atomic_bool over;

/* Attaches the last bus and detaches it, until the visits are over. */
static void *edit_beside(void *editor)
{
    struct editor *e = editor;
    while (!atomic_load(&over)) {
        attach(e, e->list->buses - 1, 1);
        detach(e, e->list->buses - 1);
    }
    return NULL;
}

int main(int argc, char **argv)
{
    static struct list list;
    static struct editor editor = { &list, 0, { 0 } };
    if (argc != 4) return 2;
    bool visits = !strcmp(argv[1], "visits"), beside = !strcmp(argv[1], "beside");
    uint32_t attached = (uint32_t)atoi(argv[2]), rounds = (uint32_t)strtoul(argv[3], NULL, 10), sum = 0;
    list.buses = visits ? attached : attached + 1;
    if (attached < 1 || list.buses > MOST_BUSES) return 2;
    atomic_store(link_of(&list, list.buses), list.buses);
    editor.links[list.buses] = list.buses;
    for (uint32_t bus = 0; bus < attached; bus++) attach(&editor, bus, bus + 1);
    struct pass pass = { &list, 0, 0, list.buses, NO_FEED, false };
    if (!visits && !beside) {
        for (uint32_t r = 0; r < rounds; r++) {
            attach(&editor, attached, r | 1);
            sum = sum * 31 + detach(&editor, attached);
        }
    } else {
        pthread_t thread;
        if (beside && pthread_create(&thread, NULL, edit_beside, &editor)) return 1;
        for (uint32_t r = 0; r < rounds; r++) sum = visit(&pass, sum);
        atomic_store(&over, true);
        if (beside) pthread_join(thread, NULL);
    }
    /* what visits beside edits give is not the same in each run */
    printf("%u\n", beside ? rounds : sum);
    return 0;
}
