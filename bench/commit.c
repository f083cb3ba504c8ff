/* LAYOUTCOMMIT: as many ranges as extents, which lie at the extents' ends, across them, or over pairs of a read and an invalid extent. */
#include "bench.h"
#include "bytes.h"
#include "plain.h"
#include "stellcircle.h"

PLAIN(gcc_)
PLAIN(clang_)

enum { MOST = 1024, CALLS = 5, BLOCK = 512, SIZE = 4096 };
static uint8_t devices[16 * MOST], commits[4 + 16 * MOST], out[4 + 44 * MOST];
static uint64_t offsets[MOST], lengths[MOST], storages[MOST];
static uint32_t states[MOST];
static size_t n;

static void extent(size_t i, uint64_t offset, uint64_t storage, uint32_t state)
{
    memset(devices + 16 * i, 7, 16);
    offsets[i] = offset;
    lengths[i] = SIZE;
    storages[i] = storage;
    states[i] = state;
}

static void range(size_t k, uint64_t offset, uint64_t length)
{
    put32(commits, (uint32_t)n);
    put64(commits + 4 + 16 * k, offset);
    put64(commits + 4 + 16 * k + 8, length);
}

/* The job has to be done, and not refused. */
static void ready(void)
{
    uint64_t place;
    if (sc_layout_commit(commits, 4 + 16 * n, BLOCK, devices, 16 * n, offsets, n, lengths, n, storages, n, states, n, out, sizeof out, &place) != 0)
        exit(1);
}

/* Invalid extents, of which none continues another's storage, and a range over each: as many extents are left. */
static void at_ends(void)
{
    n = (size_t)bench_argument;
    for (size_t i = 0; i < n; i++) {
        extent(i, SIZE * i, 2 * SIZE * i, 2);
        range(i, SIZE * i, SIZE);
    }
    ready();
}

/* Invalid extents that touch in the file and in storage, and ranges that touch, each from the middle of one extent to the middle of the next: two extents are left. */
static void across(void)
{
    n = (size_t)bench_argument;
    for (size_t i = 0; i < n; i++) {
        extent(i, SIZE * i, SIZE * i, 2);
        range(i, SIZE * i + SIZE / 2, i + 1 < n ? SIZE : SIZE / 2);
    }
    ready();
}

/* Before a copy on write: read extents, with an invalid one over the same bytes each; and four ranges, block by block, over the first half of every other pair: three extents are left of each four. */
static void pairs(void)
{
    n = (size_t)bench_argument;
    for (size_t i = 0; i < n; i++)
        extent(i, SIZE * (i / 2), (i % 2 ? 1 << 30 : 0) + SIZE * (i / 2), i % 2 ? 2 : 1);
    for (size_t k = 0; k < n; k++)
        range(k, 2 * SIZE * (k / 4) + BLOCK * (k % 4), BLOCK);
    ready();
}

#define JOBS(P, FORM) \
    static void P##commit(void) \
    { \
        uint64_t place; \
        for (int i = 0; i < CALLS; i++) \
            bench_sum[FORM] += P##layout_commit(commits, 4 + 16 * n, BLOCK, devices, 16 * n, offsets, n, lengths, n, storages, n, states, n, out, sizeof out, &place) + place; \
    }
JOBS(sc_, 0)
JOBS(gcc_, 1)
JOBS(clang_, 2)

#define JOB(WHAT, FILL, N, LIMIT) {"commit, " #N " extents and ranges, " WHAT, CALLS, LIMIT, N, {FILL, FILL, FILL}, BENCH_FORMS(commit)}
static const struct bench_job jobs[] = {
    JOB("at extents' ends", at_ends, 512, 0), JOB("at extents' ends", at_ends, 1024, 1.3), JOB("across ends", across, 512, 0), JOB("across ends", across, 1024, 1.3),
    JOB("copy on write", pairs, 512, 0),      JOB("copy on write", pairs, 1024, 1.3),
};

int main(int argc, char **argv)
{
    const struct bench b = {jobs, sizeof jobs / sizeof jobs[0], 400, NULL, NULL};
    return bench_main(&b, argc, argv);
}
