/* The layout check, the extents one by one, and the writer; for SCSI and for RDMA bodies. */
#include "bench.h"
#include "plain.h"
#include "stellcircle.h"

PLAIN(gcc_)
PLAIN(clang_)

enum { MOST = 1024, CALLS = 20 };
static uint8_t devices[16 * MOST], body[4 + 44 * MOST], rdma_body[4 + 48 * MOST], out[4 + 48 * MOST];
static uint64_t offsets[MOST], lengths[MOST], storages[MOST];
static uint32_t handles[MOST], states[MOST];
static size_t n;

/* A body of so many extents, one after the other, of any states. */
static void fill(void)
{
    uint64_t place;
    n = (size_t)bench_argument;
    for (size_t i = 0; i < n; i++) {
        memset(devices + 16 * i, (int)(i % 7), 16);
        offsets[i] = 4096 * i;
        lengths[i] = 4096;
        storages[i] = 1 << 20;
        states[i] = (uint32_t)i * 2654435761u >> 30;
        handles[i] = (uint32_t)i * 40503u;
    }
    if (sc_layout_write(devices, 16 * n, offsets, n, lengths, n, storages, n, states, n, body, 4 + 44 * n, &place) != 0 ||
        sc_rdma_layout_write(devices, 16 * n, offsets, n, handles, n, lengths, n, storages, n, states, n, rdma_body, 4 + 48 * n, &place) != 0)
        exit(1);
}

#define JOBS(P, FORM) \
    static void P##check(void) \
    { \
        uint64_t place; \
        for (int i = 0; i < CALLS; i++) \
            bench_sum[FORM] += P##layout_check(body, 4 + 44 * n, &place) + place; \
    } \
    static void P##extents(void) \
    { \
        uint64_t device, offset, length, storage; \
        uint32_t extent_state; \
        for (size_t i = 0; i < n; i++) \
            bench_sum[FORM] += P##layout_extent(body, 4 + 44 * n, n, i, &device, &offset, &length, &storage, &extent_state) + device + offset + storage + extent_state; \
    } \
    static void P##write(void) \
    { \
        uint64_t place; \
        for (int i = 0; i < CALLS; i++) \
            bench_sum[FORM] += P##layout_write(devices, 16 * n, offsets, n, lengths, n, storages, n, states, n, out, 4 + 44 * n, &place) + place; \
    } \
    static void P##rdma_check(void) \
    { \
        uint64_t place; \
        for (int i = 0; i < CALLS; i++) \
            bench_sum[FORM] += P##rdma_layout_check(rdma_body, 4 + 48 * n, &place) + place; \
    } \
    static void P##rdma_write(void) \
    { \
        uint64_t place; \
        for (int i = 0; i < CALLS; i++) \
            bench_sum[FORM] += P##rdma_layout_write(devices, 16 * n, offsets, n, handles, n, lengths, n, storages, n, states, n, out, 4 + 48 * n, &place) + place; \
    }
JOBS(sc_, 0)
JOBS(gcc_, 1)
JOBS(clang_, 2)

#define SIZE(N) \
    {"layout check, " #N " extents", CALLS, 0, N, {fill, fill, fill}, BENCH_FORMS(check)}, \
    {"layout write, " #N " extents", CALLS, 0, N, {fill, fill, fill}, BENCH_FORMS(write)}
static const struct bench_job jobs[] = {
    SIZE(256),
    SIZE(512),
    SIZE(1024),
    {"layout extent, by its place", 1024, 0, 1024, {fill, fill, fill}, BENCH_FORMS(extents)},
    {"RDMA layout check, 1024 extents", CALLS, 1.2, 1024, {fill, fill, fill}, BENCH_FORMS(rdma_check)},
    {"RDMA layout write, 1024 extents", CALLS, 1.2, 1024, {fill, fill, fill}, BENCH_FORMS(rdma_write)},
};

int main(int argc, char **argv)
{
    const struct bench b = {jobs, sizeof jobs / sizeof jobs[0], 400, NULL, NULL};
    return bench_main(&b, argc, argv);
}
