/* Layout bodies in plain C: the check, in one pass, an extent by its place, and the writer; for SCSI bodies, and for RDMA bodies, whose extents have a handle after the offset. */
#include "bytes.h"
#include "plain.h"

/* The offset and state of the extent before, and where the ends of all earlier extents lie: read-write ones and holes, read ones, invalid ones. */
struct scan {
    uint64_t last, busy, read, invalid;
    uint32_t was;
};

static uint64_t larger(uint64_t a, uint64_t b)
{
    return a < b ? b : a;
}

/* Rules 3 to 7 for the next extent. */
static uint32_t next(struct scan *s, uint64_t off, uint64_t len, uint64_t sto, uint32_t st)
{
    if (st > 3)
        return 3;
    if (len == 0)
        return 4;
    if (off > UINT64_MAX - len || (st != 3 && sto > UINT64_MAX - len))
        return 5;
    if (off < s->last || (s->was == 2 && st == 1 && off == s->last))
        return 6;
    uint64_t limit = s->busy;
    if (st != 1)
        limit = larger(limit, s->invalid);
    if (st != 2)
        limit = larger(limit, s->read);
    if (off < limit)
        return 7;
    s->last = off;
    s->was = st;
    uint64_t *end = st == 1 ? &s->read : st == 2 ? &s->invalid : &s->busy;
    *end = larger(*end, off + len);
    return 0;
}

uint32_t FN(layout_check)(const uint8_t *body, size_t len, uint64_t *place)
{
    struct scan s = {0, 0, 0, 0, 0};
    *place = 0;
    if (len < 4)
        return 1;
    size_t n = be32(body);
    if (n > 1024)
        return 2;
    if (len != 4 + 44 * n)
        return 1;
    for (size_t i = 0; i < n; i++) {
        const uint8_t *e = body + 4 + 44 * i;
        uint32_t k = next(&s, be64(e + 16), be64(e + 24), be64(e + 32), be32(e + 40));
        if (k) {
            *place = i;
            return k;
        }
    }
    *place = n;
    return 0;
}

uint32_t FN(layout_extent)(const uint8_t *body, size_t len, uint64_t n, uint64_t i, uint64_t *device, uint64_t *offset, uint64_t *length, uint64_t *storage, uint32_t *state)
{
    *device = *offset = *length = *storage = *state = 0;
    if (len < 4 || i >= n || i >= (len - 4) / 44)
        return 9;
    const uint8_t *e = body + 4 + 44 * i;
    *device = 4 + 44 * i;
    *offset = be64(e + 16);
    *length = be64(e + 24);
    *storage = be64(e + 32);
    *state = be32(e + 40);
    return 0;
}

uint32_t FN(layout_write)(const uint8_t *devs, size_t devs_len, const uint64_t *offs, size_t n, const uint64_t *lens, size_t lens_len,
                          const uint64_t *stos, size_t stos_len, const uint32_t *sts, size_t sts_len, uint8_t *out, size_t out_len, uint64_t *place)
{
    struct scan s = {0, 0, 0, 0, 0};
    *place = 0;
    if (lens_len != n || stos_len != n || sts_len != n || devs_len != 16 * n)
        return 1;
    if (n > 1024)
        return 2;
    for (size_t i = 0; i < n; i++) {
        uint32_t k = next(&s, offs[i], lens[i], stos[i], sts[i]);
        if (k) {
            *place = i;
            return k;
        }
    }
    if (out_len < 4 + 44 * n)
        return 8;
    put32(out, (uint32_t)n);
    for (size_t i = 0; i < n; i++) {
        uint8_t *e = out + 4 + 44 * i;
        memcpy(e, devs + 16 * i, 16);
        put64(e + 16, offs[i]);
        put64(e + 24, lens[i]);
        put64(e + 32, stos[i]);
        put32(e + 40, sts[i]);
    }
    *place = n;
    return 0;
}

uint32_t FN(rdma_layout_check)(const uint8_t *body, size_t len, uint64_t *place)
{
    struct scan s = {0, 0, 0, 0, 0};
    *place = 0;
    if (len < 4)
        return 1;
    size_t n = be32(body);
    if (n > 1024)
        return 2;
    if (len != 4 + 48 * n)
        return 1;
    for (size_t i = 0; i < n; i++) {
        const uint8_t *e = body + 4 + 48 * i;
        uint32_t k = next(&s, be64(e + 16), be64(e + 28), be64(e + 36), be32(e + 44));
        if (k) {
            *place = i;
            return k;
        }
    }
    *place = n;
    return 0;
}

uint32_t FN(rdma_layout_extent)(const uint8_t *body, size_t len, uint64_t n, uint64_t i, uint64_t *device, uint64_t *offset, uint32_t *handle, uint64_t *length,
                                uint64_t *storage, uint32_t *state)
{
    *device = *offset = *length = *storage = *handle = *state = 0;
    if (len < 4 || i >= n || i >= (len - 4) / 48)
        return 9;
    const uint8_t *e = body + 4 + 48 * i;
    *device = 4 + 48 * i;
    *offset = be64(e + 16);
    *handle = be32(e + 24);
    *length = be64(e + 28);
    *storage = be64(e + 36);
    *state = be32(e + 44);
    return 0;
}

uint32_t FN(rdma_layout_write)(const uint8_t *devs, size_t devs_len, const uint64_t *offs, size_t n, const uint32_t *handles, size_t handles_len,
                               const uint64_t *lens, size_t lens_len, const uint64_t *stos, size_t stos_len, const uint32_t *sts, size_t sts_len,
                               uint8_t *out, size_t out_len, uint64_t *place)
{
    struct scan s = {0, 0, 0, 0, 0};
    *place = 0;
    if (handles_len != n || lens_len != n || stos_len != n || sts_len != n || devs_len != 16 * n)
        return 1;
    if (n > 1024)
        return 2;
    for (size_t i = 0; i < n; i++) {
        uint32_t k = next(&s, offs[i], lens[i], stos[i], sts[i]);
        if (k) {
            *place = i;
            return k;
        }
    }
    if (out_len < 4 + 48 * n)
        return 8;
    put32(out, (uint32_t)n);
    for (size_t i = 0; i < n; i++) {
        uint8_t *e = out + 4 + 48 * i;
        memcpy(e, devs + 16 * i, 16);
        put64(e + 16, offs[i]);
        put32(e + 24, handles[i]);
        put64(e + 28, lens[i]);
        put64(e + 36, stos[i]);
        put32(e + 44, sts[i]);
    }
    *place = n;
    return 0;
}
