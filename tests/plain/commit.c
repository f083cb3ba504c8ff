/* LAYOUTCOMMIT in plain C: the checks of the extents and of the commit list; a sweep over the boundaries of extents and ranges that counts, and the same sweep once more, which writes.
   In this order: columns and pieces; the commit list; the sweep; the call. */
#include "plain.h"
#include "runs.h"

#include <stdbool.h>

struct columns {
    const uint8_t *devs;
    const uint64_t *offs, *lens, *stos;
    const uint32_t *sts;
    size_t n;
};

/* What the pieces so far came to: the latest runs, how many there were, and, where the pieces are written, the end of the body. */
struct body {
    struct run runs[3];
    size_t count;
    uint8_t *at;
};

static void open_body(struct body *b, uint8_t *at)
{
    static const struct run none = {0, 0, 0, NULL, NULL, 4};
    b->runs[0] = b->runs[1] = b->runs[2] = none;
    b->count = 0;
    b->at = at;
}

/* The bytes from `from` to `to` of the extent in row i, in state st, are the next piece. */
static inline void feed(struct body *b, const struct columns *c, size_t i, uint64_t from, uint64_t to, uint32_t st, bool write)
{
    const uint8_t *dev = c->devs + 16 * i;
    uint64_t sto = c->stos[i] + (from - c->offs[i]);
    struct run *r = &b->runs[kind(st)];
    if (joins(r, dev, from, to - from, sto, st)) {
        if (write)
            put64(r->at + 24, r->end - r->offset);
        return;
    }
    start(r, dev, from, to - from, sto, st);
    b->count++;
    if (write) {
        r->at = b->at;
        put_run(b->at, dev, from, to - from, sto, st);
        b->at += 44;
    }
}

/* Block sizes, lengths, ends and order of m ranges. */
static uint32_t check_ranges(const uint8_t *ranges, size_t m, uint64_t block)
{
    uint64_t before = 0;
    if (block == 0)
        return 22;
    for (size_t k = 0; k < m; k++) {
        uint64_t off = be64(ranges + 16 * k), len = be64(ranges + 16 * k + 8);
        if (len == 0 || off > UINT64_MAX - len || off < before || off % block || len % block)
            return 22;
        before = off + len;
    }
    return 0;
}

/* Where range k begins and ends; past the last range, where no byte is. */
static inline void range_at(const uint8_t *ranges, size_t m, size_t k, uint64_t *lo, uint64_t *hi)
{
    *lo = *hi = UINT64_MAX;
    if (k < m) {
        *lo = be64(ranges + 16 * k);
        *hi = *lo + be64(ranges + 16 * k + 8);
    }
}

static inline uint64_t smaller(uint64_t a, uint64_t b)
{
    return a < b ? a : b;
}

/* From boundary to boundary: x is where the sweep stands, `read` the row of the read extent over x and `other` that of any other one, `next` the first row that begins after x, and k the first
   range that ends after x. Nothing is over x where the end that is kept is not after it. */
static inline uint32_t sweep(struct body *b, const struct columns *c, const uint8_t *ranges, size_t m, bool write)
{
    size_t read = 0, other = 0, next = 0, k = 0;
    uint64_t x = 0, read_end = 0, other_end = 0, lo, hi;
    range_at(ranges, m, k, &lo, &hi);
    for (;;) {
        for (; next < c->n && c->offs[next] == x; next++) {
            uint64_t end = x + c->lens[next];
            if (c->sts[next] == 1)
                read = next, read_end = end;
            else
                other = next, other_end = end;
        }
        uint64_t to = next < c->n ? c->offs[next] : UINT64_MAX;
        bool in_read = x < read_end, in_other = x < other_end;
        if (!in_read && !in_other) {
            if (lo < to)
                return 10034;
            if (next == c->n)
                return 0;
            x = to;
            continue;
        }
        if (in_read)
            to = smaller(to, read_end);
        if (in_other)
            to = smaller(to, other_end);
        if (x < lo) {
            to = smaller(to, lo);
            if (in_read)
                feed(b, c, read, x, to, 1, write);
            if (in_other)
                feed(b, c, other, x, to, c->sts[other], write);
        } else {
            to = smaller(to, hi);
            if (!in_other || c->sts[other] == 3)
                return 10034;
            feed(b, c, other, x, to, 0, write);
        }
        x = to;
        if (x == hi)
            range_at(ranges, m, ++k, &lo, &hi);
    }
}

static uint32_t check_extents(const struct columns *c, uint64_t *place)
{
    struct scan s = {0, {0, 0, 0}, 0};
    for (size_t i = 0; i < c->n; i++) {
        uint32_t number = next(&s, c->offs[i], c->lens[i], c->stos[i], c->sts[i]);
        if (number) {
            *place = i;
            return number;
        }
    }
    return 0;
}

uint32_t FN(layout_commit)(const uint8_t *commits, size_t commits_len, uint64_t block, const uint8_t *devs, size_t devs_len, const uint64_t *offs, size_t n,
                           const uint64_t *lens, size_t lens_len, const uint64_t *stos, size_t stos_len, const uint32_t *sts, size_t sts_len, uint8_t *out,
                           size_t out_len, uint64_t *place)
{
    const struct columns c = {devs, offs, lens, stos, sts, n};
    struct body b;
    uint32_t number;
    *place = 0;
    if (lens_len != n || stos_len != n || sts_len != n || devs_len != 16 * n)
        return 1;
    if (n > 1024)
        return 2;
    if ((number = check_extents(&c, place)) != 0)
        return number;
    if (commits_len < 4 || be32(commits) > 1024 || commits_len != 4 + 16 * (size_t)be32(commits))
        return 10036;
    size_t m = be32(commits);
    if ((number = check_ranges(commits + 4, m, block)) != 0)
        return number;
    open_body(&b, NULL);
    if ((number = sweep(&b, &c, commits + 4, m, false)) != 0)
        return number;
    if (b.count > 1024)
        return 28;
    if (out_len < 4 + 44 * b.count)
        return 8;
    put32(out, (uint32_t)b.count);
    open_body(&b, out + 4);
    sweep(&b, &c, commits + 4, m, true);
    *place = b.count;
    return 0;
}
