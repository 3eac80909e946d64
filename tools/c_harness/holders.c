/* holders DIR EMPTY: probes on four threads while the path changes between DIR, EMPTY (a folder with what is no table) and none. A
 * wrong value, or a read of what was unmapped, ends it with another status than 0. Built over contrib/tbprobe.c. */
#define _DEFAULT_SOURCE
#include <pthread.h>
#include <stdio.h>
#include <stdlib.h>
#include <unistd.h>
#include "tbprobe.h"

enum { THREADS = 4, LIVES = 6, PROBES = 4000, CHANGES = 60 };
static int ended;

/* a white queen on b1 wins: KQvK */
static unsigned probe(void)
{
    return tb_probe_wdl(1ULL << 46 | 2, 1ULL << 63, 1ULL << 46 | 1ULL << 63, 2, 0, 0, 0, 0, 0, 0, 0, true);
}

static void *probe_on(void *answered)
{
    for (int i = 0; i < PROBES && !__atomic_load_n(&ended, __ATOMIC_ACQUIRE); i++) {
        unsigned told = probe();
        if (told != TB_WIN && told != TB_RESULT_FAILED) exit(3);
        if (told == TB_WIN) __atomic_add_fetch((int *)answered, 1, __ATOMIC_RELAXED);
    }
    return NULL;
}

int main(int argc, char **argv)
{
    static int answered;
    if (argc != 3 || !tb_init(argv[1]) || TB_LARGEST < 3 || probe() != TB_WIN) return 2;
    for (int life = 0; life < LIVES; life++) {
        pthread_t threads[THREADS];
        ended = 0;
        for (int i = 0; i < THREADS; i++)
            if (pthread_create(&threads[i], NULL, probe_on, &answered)) return 2;
        for (int i = 0; i < CHANGES; i++) {
            if (!tb_init(argv[1 + i % 2])) return 4;
            if (i % 5 == 4) tb_free();
            usleep(500);
        }
        __atomic_store_n(&ended, 1, __ATOMIC_RELEASE);
        for (int i = 0; i < THREADS; i++) pthread_join(threads[i], NULL);
    }
    if (!tb_init(argv[1]) || probe() != TB_WIN || !answered) return 5;
    setenv("HOFSJURD_STRICT", "1", 1);
    if (tb_init(argv[2]) || TB_LARGEST || probe() != TB_RESULT_FAILED) return 6;
    tb_free();
    printf("holders: %d probes answered while the path changed\n", answered);
    return 0;
}
