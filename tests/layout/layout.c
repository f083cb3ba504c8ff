/* The layout check, the extents by place and the layout writer through the C exports, and the check and the writer in plain C.
 * Usage: layout FILE: each line of FILE is a body in hex, its refusal (0 accepted) and the place (or how many extents).
 * Every accepted body is also turned into an RDMA body, which goes the same way, read place by place, written back from its extents, into a buffer with guard bytes, and refused without its last byte. */
#include "plain.h"
#include "stellcircle.h"
#include <stdio.h>
#include <stdlib.h>
#include <string.h>

PLAIN(plain_)

enum { MOST = 65536, GUARD = 64 };

static int bad;
static unsigned long checked, accepted, written;

static void expect(int holds, unsigned long line, const char *what)
{
    if (!holds) {
        printf("line %lu: %s\n", line, what);
        bad = 1;
    }
}

static int nibble(int c)
{
    if (c >= '0' && c <= '9')
        return c - '0';
    if (c >= 'a' && c <= 'f')
        return c - 'a' + 10;
    return -1;
}

static size_t unhex(const char *text, size_t n, uint8_t *out)
{
    for (size_t i = 0; i + 1 < n; i += 2)
        out[i / 2] = (uint8_t)(nibble(text[i]) * 16 + nibble(text[i + 1]));
    return n / 2;
}

static uint64_t number(const uint8_t *s, int width)
{
    uint64_t x = 0;
    for (int i = 0; i < width; i++)
        x = x << 8 | s[i];
    return x;
}

/* Holds the extent at place i to its 44 bytes, or to 9 and zeros where it is at or past n. */
static void read_place(const uint8_t *body, size_t len, uint64_t n, uint64_t i, unsigned long line)
{
    uint64_t device = 77, offset = 77, length = 77, storage = 77;
    uint32_t state = 77, rule = sc_layout_extent(body, len, n, i, &device, &offset, &length, &storage, &state);
    uint64_t plain[4];
    uint32_t plain_state, plain_rule = plain_layout_extent(body, len, n, i, &plain[0], &plain[1], &plain[2], &plain[3], &plain_state);
    expect(plain_rule == rule && plain[0] == device && plain[1] == offset && plain[2] == length && plain[3] == storage && plain_state == state, line, "plain C gives another extent");
    if (i >= n) {
        expect(rule == 9 && (device | offset | length | storage | state) == 0, line, "a place past the count is not 9 and zeros");
        return;
    }
    const uint8_t *e = body + 4 + 44 * i;
    expect(rule == 0 && body + device == e, line, "an extent is not where it lies");
    expect(offset == number(e + 16, 8) && length == number(e + 24, 8), line, "an extent's offset or length is another");
    expect(storage == number(e + 32, 8) && state == number(e + 40, 4), line, "an extent's storage offset or state is another");
}

static void read_places(const uint8_t *body, size_t len, uint64_t n, unsigned long line)
{
    for (uint64_t i = 0; i <= n; i++)
        read_place(body, len, n, i, line);
    read_place(body, len, n, UINT64_MAX, line);
}

/* Writes the n extents of an accepted body back, with room bytes of buffer, and holds the buffer to what it must be. */
static void write_back(const uint8_t *body, size_t len, size_t n, size_t room, unsigned long line)
{
    static uint8_t devices[16 * 1024], out[MOST + 2 * GUARD], plain_out[MOST + 2 * GUARD], want[MOST + 2 * GUARD];
    static uint64_t offsets[1024], lengths[1024], storages[1024];
    static uint32_t states[1024];
    uint64_t place = 77, plain_place = 77;
    for (size_t i = 0; i < n; i++) {
        const uint8_t *e = body + 4 + 44 * i;
        memcpy(devices + 16 * i, e, 16);
        offsets[i] = number(e + 16, 8);
        lengths[i] = number(e + 24, 8);
        storages[i] = number(e + 32, 8);
        states[i] = (uint32_t)number(e + 40, 4);
    }
    memset(out, 0xa5, sizeof out);
    memcpy(want, out, sizeof out);
    uint32_t rule = sc_layout_write(devices, 16 * n, offsets, n, lengths, n, storages, n, states, n, out + GUARD, room, &place);
    memset(plain_out, 0xa5, sizeof plain_out);
    uint32_t plain_rule = plain_layout_write(devices, 16 * n, offsets, n, lengths, n, storages, n, states, n, plain_out + GUARD, room, &plain_place);
    if (room < len) {
        expect(rule == 8 && place == 0, line, "a short buffer is not refused by 8");
    } else {
        expect(rule == 0 && place == n, line, "an accepted list is not written");
        memcpy(want + GUARD, body, len);
    }
    expect(memcmp(out, want, sizeof out) == 0, line, "the buffer is not what it must be");
    expect(plain_rule == rule && plain_place == place && memcmp(plain_out, want, sizeof want) == 0, line, "plain C writes otherwise");
    if (n > 0) {
        rule = sc_layout_write(devices, 16 * n - 1, offsets, n, lengths, n, storages, n, states, n, out + GUARD, room, &place);
        expect(rule == 1 && place == 0, line, "uneven columns are not refused by 1");
        expect(memcmp(out, want, sizeof out) == 0, line, "uneven columns changed the buffer");
    }
    written++;
}

/* The same body with a handle in each extent, as an RDMA body: checked, read place by place, written back and compared; and each kind's body is not the other's. */
static void as_rdma(const uint8_t *body, size_t n, unsigned long line)
{
    static uint8_t rdma[MOST], out[MOST], devices[16 * 1024];
    static uint64_t offsets[1024], lengths[1024], storages[1024];
    static uint32_t states[1024], handles[1024];
    size_t len = 4 + 48 * n;
    uint64_t place = 77, device;
    memcpy(rdma, body, 4);
    for (size_t i = 0; i < n; i++) {
        uint8_t *to = rdma + 4 + 48 * i;
        memcpy(to, body + 4 + 44 * i, 24);
        for (int k = 0; k < 4; k++)
            to[24 + k] = (uint8_t)(i * 37 + (size_t)k * 91 + 5);
        memcpy(to + 28, body + 28 + 44 * i, 20);
    }
    expect(sc_rdma_layout_check(rdma, len, &place) == 0 && place == n, line, "an RDMA body is not accepted");
    expect(plain_rdma_layout_check(rdma, len, &place) == 0 && place == n, line, "plain C does not accept an RDMA body");
    for (size_t i = 0; i < n; i++) {
        const uint8_t *e = rdma + 4 + 48 * i;
        uint32_t rule = sc_rdma_layout_extent(rdma, len, n, i, &device, offsets + i, handles + i, lengths + i, storages + i, states + i);
        expect(rule == 0 && rdma + device == e && handles[i] == number(e + 24, 4) && lengths[i] == number(e + 28, 8), line, "an RDMA extent is another");
        memcpy(devices + 16 * i, e, 16);
    }
    expect(sc_rdma_layout_write(devices, 16 * n, offsets, n, handles, n, lengths, n, storages, n, states, n, out, len, &place) == 0 && place == n, line, "an RDMA list is not written");
    expect(memcmp(out, rdma, len) == 0, line, "an RDMA body is not written back");
    if (n > 0) {
        expect(sc_rdma_layout_write(devices, 16 * n, offsets, n, handles, n - 1, lengths, n, storages, n, states, n, out, len, &place) == 1, line, "a handle too few is not refused by 1");
        expect(sc_rdma_layout_write(devices, 16 * n, offsets, n, handles, n, lengths, n, storages, n, states, n, out, len - 1, &place) == 8, line, "a short buffer is not refused by 8");
        expect(sc_rdma_layout_check(body, 4 + 44 * n, &place) == 1, line, "a SCSI body passes as an RDMA body");
        expect(sc_layout_check(rdma, len, &place) == 1, line, "an RDMA body passes as a SCSI body");
    }
}

static void check(const uint8_t *body, size_t len, uint32_t rule, uint64_t place, unsigned long line)
{
    uint64_t at = 77, plain_at = 77;
    uint32_t got = sc_layout_check(body, len, &at);
    expect(got == rule && at == place, line, "another answer");
    expect(plain_layout_check(body, len, &plain_at) == rule && plain_at == place, line, "another answer of plain C");
    checked++;
    if (rule == 0) {
        accepted++;
        read_places(body, len, place, line);
        as_rdma(body, (size_t)place, line);
        write_back(body, len, (size_t)place, len + 100, line);
        write_back(body, len, (size_t)place, len, line);
        write_back(body, len, (size_t)place, len - 1, line);
        got = sc_layout_check(body, len - 1, &at);
        expect(got == 1 && at == 0, line, "an accepted body without its last byte is not refused by 1");
    }
}

int main(int argc, char **argv)
{
    static char text[8 * MOST];
    static uint8_t body[4 * MOST];
    unsigned long line = 0;
    FILE *f = argc == 2 ? fopen(argv[1], "r") : NULL;
    if (!f) {
        fprintf(stderr, "usage: layout FILE\n");
        return 2;
    }
    while (fgets(text, sizeof text, f)) {
        line++;
        if (text[0] == '#' || text[0] == '\n')
            continue;
        size_t hex = strcspn(text, " ");
        unsigned rule;
        unsigned long long place;
        if (sscanf(text + hex, "%u %llu", &rule, &place) != 2) {
            printf("line %lu: no answer to hold it to\n", line);
            return 1;
        }
        if (hex == 1 && text[0] == '-')
            hex = 0;
        check(body, unhex(text, hex, body), rule, place, line);
    }
    fclose(f);
    expect(checked > 0 && accepted > 0 && checked > accepted, line, "no cases of each kind");
    printf("layout: %lu bodies checked, %lu accepted, %lu written back: %s\n", checked, accepted, written, bad ? "FAILED" : "as they must be");
    return bad;
}
