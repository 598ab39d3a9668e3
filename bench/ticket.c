/* A yardstick for rivals: a fair ticket lock as plain C has it, whose waiting threads yield, or with a third word spin alone. */
#include "turns.h"
#include <sched.h>
#include <stdatomic.h>

static _Atomic uint64_t ticket, serving;
static int spins;

static void *take_turns(void *turns)
{
    for (uint64_t i = 0; i < *(uint64_t *)turns; i++) {
        uint64_t mine = atomic_fetch_add(&ticket, 1);
        while (atomic_load(&serving) != mine)
            if (!spins)
                sched_yield();
        tally++;
        atomic_store(&serving, mine + 1);
    }
    return NULL;
}

int main(int argc, char **argv)
{
    if (argc < 3) {
        puts("usage: ticket THREADS TURNS [spin]");
        return 1;
    }
    spins = argc > 3;
    return run_threads(argv[1], argv[2], take_turns);
}
