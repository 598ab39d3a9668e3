/* What the yardsticks of a turn share: THREADS threads run take_turns with TURNS, and the turns that were taken are written. */
#include <pthread.h>
#include <stdint.h>
#include <stdio.h>
#include <stdlib.h>

static uint64_t tally;

static int run_threads(const char *threads_word, const char *turns_word, void *(*take_turns)(void *))
{
    long threads = strtol(threads_word, NULL, 10);
    uint64_t turns = strtoull(turns_word, NULL, 10);
    pthread_t ids[64];
    if (threads < 1 || threads > 64)
        return 1;
    for (long i = 0; i < threads; i++)
        if (pthread_create(&ids[i], NULL, take_turns, &turns) != 0)
            return 1;
    for (long i = 0; i < threads; i++)
        pthread_join(ids[i], NULL);
    printf("%llu turns\n", (unsigned long long)tally);
    return 0;
}
