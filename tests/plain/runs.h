/* What merging and committing share: the rules for the next extent of a list, and the latest run of each kind, which a next piece lengthens or which it ends. */
#ifndef PLAIN_RUNS_H
#define PLAIN_RUNS_H

#include "bytes.h"

#include <stddef.h>

/* The offset and state of the extent before, and where the ends of all earlier extents lie: read-write ones and holes, read ones, invalid ones. */
struct scan {
    uint64_t last, ends[3];
    uint32_t was;
};

/* The latest run of each of those three kinds: where it began and ends, in the file and in storage, its device, and its place in the body. */
struct run {
    uint64_t offset, end, storage_end;
    const uint8_t *device;
    uint8_t *at;
    uint32_t state;
};

static unsigned kind(uint32_t st)
{
    return st == 1 ? 1 : st == 2 ? 2 : 0;
}

static uint64_t larger(uint64_t a, uint64_t b)
{
    return a < b ? b : a;
}

/* Rules 3 to 7 for the next extent. */
static uint32_t next(struct scan *s, uint64_t off, uint64_t len, uint64_t sto, uint32_t st)
{
    if (st > 3)
        return 3;
    if (len == 0)
        return 4;
    if (off > UINT64_MAX - len || (st != 3 && sto > UINT64_MAX - len))
        return 5;
    if (off < s->last || (s->was == 2 && st == 1 && off == s->last))
        return 6;
    uint64_t limit = s->ends[0];
    if (st != 1)
        limit = larger(limit, s->ends[2]);
    if (st != 2)
        limit = larger(limit, s->ends[1]);
    if (off < limit)
        return 7;
    s->last = off;
    s->was = st;
    s->ends[kind(st)] = larger(s->ends[kind(st)], off + len);
    return 0;
}

/* Whether the extent begins just where the run ends, and is lengthened by it then. */
static int joins(struct run *r, const uint8_t *dev, uint64_t off, uint64_t len, uint64_t sto, uint32_t st)
{
    if (r->state != st || r->end != off || (st != 3 && (r->storage_end != sto || memcmp(r->device, dev, 16))))
        return 0;
    r->end = off + len;
    r->storage_end = sto + len;
    return 1;
}

static void start(struct run *r, const uint8_t *dev, uint64_t off, uint64_t len, uint64_t sto, uint32_t st)
{
    r->offset = off;
    r->end = off + len;
    r->storage_end = sto + len;
    r->device = dev;
    r->state = st;
}

static void put_run(uint8_t *at, const uint8_t *dev, uint64_t off, uint64_t len, uint64_t sto, uint32_t st)
{
    if (st == 3) {
        memset(at, 0, 16);
        sto = 0;
    } else {
        memcpy(at, dev, 16);
    }
    put64(at + 16, off);
    put64(at + 24, len);
    put64(at + 32, sto);
    put32(at + 40, st);
}

#endif
