/* The yardstick of the turn lock: THREADS threads lock and unlock one pthread mutex TURNS times each. */
#include "turns.h"

static pthread_mutex_t lock = PTHREAD_MUTEX_INITIALIZER;

static void *take_turns(void *turns)
{
    for (uint64_t i = 0; i < *(uint64_t *)turns; i++) {
        pthread_mutex_lock(&lock);
        tally++;
        pthread_mutex_unlock(&lock);
    }
    return NULL;
}

int main(int argc, char **argv)
{
    if (argc != 3) {
        puts("usage: mutex THREADS TURNS");
        return 1;
    }
    return run_threads(argv[1], argv[2], take_turns);
}
