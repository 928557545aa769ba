/* Posts jobs to a ring, takes them and ends them as `tag_bench jobs` does, and prints the same number. Jobs lie in tagged
   slots, and the ring carries tags: a ring of places with stamps, after Dmitry Vyukov's bounded queue, as crossbeam's
   ArrayQueue has it, with a compare-exchange of the tail for each push and of the head for each pop.
   Usage: jobs THREADS THOUSANDS. */
#include <pthread.h>
#include <sched.h>
#include <stdio.h>
#include <stdlib.h>
#include "plain_slots.h"

enum { LAP = 2 * SLOTS }; /* a power of two above the number of places */

static struct {
    _Alignas(64) _Atomic uint64_t head;
    _Alignas(64) _Atomic uint64_t tail;
    struct { _Atomic uint64_t stamp; struct tag tag; } places[SLOTS];
} ring;

static uint64_t after(uint64_t at)
{
    uint64_t place = at & (LAP - 1);
    return place + 1 < SLOTS ? at + 1 : at - place + LAP;
}

static bool push(struct tag tag)
{
    uint64_t tail = atomic_load(&ring.tail);
    for (;;) {
        uint64_t place = tail & (LAP - 1), stamp = atomic_load(&ring.places[place].stamp);
        if (stamp == tail) {
            if (atomic_compare_exchange_strong(&ring.tail, &tail, after(tail))) {
                ring.places[place].tag = tag;
                atomic_store(&ring.places[place].stamp, tail + 1);
                return true;
            }
        } else {
            if (stamp + LAP == tail + 1) {
                if (atomic_load(&ring.head) + LAP == tail) return false;
            } else {
                sched_yield();
            }
            tail = atomic_load(&ring.tail);
        }
    }
}

static bool pop(struct tag *tag)
{
    uint64_t head = atomic_load(&ring.head);
    for (;;) {
        uint64_t place = head & (LAP - 1), stamp = atomic_load(&ring.places[place].stamp);
        if (stamp == head + 1) {
            if (atomic_compare_exchange_strong(&ring.head, &head, after(head))) {
                *tag = ring.places[place].tag;
                atomic_store(&ring.places[place].stamp, head + LAP);
                return true;
            }
        } else {
            if (stamp == head) {
                if (atomic_load(&ring.tail) == head) return false;
            } else {
                sched_yield();
            }
            head = atomic_load(&ring.head);
        }
    }
}

/* Posts a job: false where there is no slot or no place for it. */
static bool post(uint64_t job)
{
    struct tag tag;
    if (!take(job, &tag)) return false;
    if (push(tag)) return true;
    lift(&tag);
    give(tag);
    return false;
}

static void *rounds(void *thousands)
{
    uint64_t all = 1000 * *(const uint64_t *)thousands, taken = 0;
    for (uint64_t job = 0; job < all; job++) {
        struct tag tag;
        if (post(job) && pop(&tag)) {
            lift(&tag);
            give(tag);
            taken++;
        }
    }
    return (void *)(uintptr_t)taken;
}

int main(int argc, char **argv)
{
    if (argc != 3) return 2;
    uint64_t threads = strtoull(argv[1], NULL, 10), thousands = strtoull(argv[2], NULL, 10);
    if (threads < 1 || threads > 2) return 2;
    for (uint64_t place = 0; place < SLOTS; place++) atomic_store(&ring.places[place].stamp, place);
    pthread_t second;
    void *its = NULL;
    if (threads == 2 && pthread_create(&second, NULL, rounds, &thousands) != 0) return 1;
    uint64_t taken = (uintptr_t)rounds(&thousands);
    if (threads == 2) pthread_join(second, &its);
    printf("%llu\n", (unsigned long long)(taken + (uintptr_t)its));
    return 0;
}
