/* Merging a list of extents: one that comes to a single extent, and one in which none touches another. */
#include "bench.h"
#include "plain.h"
#include "stellcircle.h"

PLAIN(gcc_)
PLAIN(clang_)

enum { MOST = 4096, LEFT = 1024, CALLS = 5 };
static uint8_t devices[16 * MOST], out[4 + 44 * LEFT];
static uint64_t offsets[MOST], lengths[MOST], storages[MOST];
static uint32_t states[MOST];
static size_t n;

/* Read-write extents, each right behind the one before it in the file and in storage. */
static void touching(void)
{
    n = (size_t)bench_argument;
    for (size_t i = 0; i < n; i++) {
        memset(devices + 16 * i, 7, 16);
        offsets[i] = 4096 * i;
        lengths[i] = 4096;
        storages[i] = (1 << 20) + 4096 * i;
        states[i] = 0;
    }
}

/* Extents of any states, of which none continues another's storage. */
static void apart(void)
{
    touching();
    for (size_t i = 0; i < n; i++) {
        memset(devices + 16 * i, (int)(i % 7), 16);
        storages[i] = 1 << 20;
        states[i] = (uint32_t)i * 2654435761u >> 30;
        offsets[i] = 8192 * i;
    }
}

#define JOBS(P, FORM) \
    static void P##merge(void) \
    { \
        uint64_t place; \
        for (int i = 0; i < CALLS; i++) \
            bench_sum[FORM] += P##layout_merge(devices, 16 * n, offsets, n, lengths, n, storages, n, states, n, out, sizeof out, &place) + place; \
    }
JOBS(sc_, 0)
JOBS(gcc_, 1)
JOBS(clang_, 2)

#define JOB(WHAT, FILL, N, LIMIT) {"merge, " #N " extents" WHAT, CALLS, LIMIT, N, {FILL, FILL, FILL}, BENCH_FORMS(merge)}
static const struct bench_job jobs[] = {
    JOB(" that touch", touching, 1024, 0), JOB(" that touch", touching, 2048, 0), JOB(" that touch", touching, 4096, 1.2),
    JOB(", none of which touch", apart, 512, 0), JOB(", none of which touch", apart, 1024, 1.2),
};

int main(int argc, char **argv)
{
    const struct bench b = {jobs, sizeof jobs / sizeof jobs[0], 400, NULL, NULL};
    return bench_main(&b, argc, argv);
}
