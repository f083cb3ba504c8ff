/* Merging a list of extents into a layout body in plain C: a pass that checks and counts, and a pass that writes. */
#include "plain.h"
#include "runs.h"

uint32_t FN(layout_merge)(const uint8_t *devs, size_t devs_len, const uint64_t *offs, size_t n, const uint64_t *lens, size_t lens_len,
                          const uint64_t *stos, size_t stos_len, const uint32_t *sts, size_t sts_len, uint8_t *out, size_t out_len, uint64_t *place)
{
    static const struct run none = {0, 0, 0, NULL, NULL, 4};
    struct scan s = {0, {0, 0, 0}, 0};
    struct run runs[3] = {none, none, none};
    size_t count = 0;
    *place = 0;
    if (lens_len != n || stos_len != n || sts_len != n || devs_len != 16 * n)
        return 1;
    if (n > 4096)
        return 2;
    for (size_t i = 0; i < n; i++) {
        uint32_t k = next(&s, offs[i], lens[i], stos[i], sts[i]);
        if (k) {
            *place = i;
            return k;
        }
        struct run *r = &runs[kind(sts[i])];
        if (!joins(r, devs + 16 * i, offs[i], lens[i], stos[i], sts[i])) {
            start(r, devs + 16 * i, offs[i], lens[i], stos[i], sts[i]);
            count++;
        }
    }
    if (count > 1024)
        return 28;
    if (out_len < 4 + 44 * count)
        return 8;
    put32(out, (uint32_t)count);
    uint8_t *at = out + 4;
    runs[0] = runs[1] = runs[2] = none;
    for (size_t i = 0; i < n; i++) {
        struct run *r = &runs[kind(sts[i])];
        if (joins(r, devs + 16 * i, offs[i], lens[i], stos[i], sts[i])) {
            put64(r->at + 24, r->end - r->offset);
        } else {
            start(r, devs + 16 * i, offs[i], lens[i], stos[i], sts[i]);
            r->at = at;
            put_run(at, devs + 16 * i, offs[i], lens[i], stos[i], sts[i]);
            at += 44;
        }
    }
    *place = count;
    return 0;
}
