/* Takes slots and gives them back as `tag_bench` does, and prints the same number.
   Usage: tags THREADS THOUSANDS. */
#include <pthread.h>
#include <stdio.h>
#include <stdlib.h>
#include "plain_slots.h"

static void *turns(void *thousands)
{
    uint64_t rounds = 1000 * *(const uint64_t *)thousands, takes = 0;
    for (uint64_t job = 0; job < rounds; job++) {
        struct tag tag;
        if (take(job, &tag)) {
            takes += lift(&tag) == job;
            give(tag);
        }
    }
    return (void *)(uintptr_t)takes;
}

int main(int argc, char **argv)
{
    if (argc != 3) return 2;
    uint64_t threads = strtoull(argv[1], NULL, 10), thousands = strtoull(argv[2], NULL, 10);
    if (threads < 1 || threads > 2) return 2;
    uint64_t takes = 0;
    pthread_t second;
    void *its_takes = NULL;
    if (threads == 2 && pthread_create(&second, NULL, turns, &thousands) != 0) return 1;
    takes += (uintptr_t)turns(&thousands);
    if (threads == 2) pthread_join(second, &its_takes);
    printf("%llu\n", (unsigned long long)(takes + (uintptr_t)its_takes));
    return 0;
}
