/*
 * The calls on a record through the archive: where a record lies and how big it is, marked examples K10 to K13, and random calls
 * (seed: the argument, or 1) beside tests/plain/record.c: each answer, each reply, all totals and both lists, from either direction, where nobody asks
 * for one, and for numbers that are none; after each call both counts; and what the record holds of the mirrors, the proxy, the blame and the mark of each
 * file and of the stateid of each intent, since no call tells of a proxy's blame, and of a stateid only an accepted return. Seqids that no list of calls
 * reaches, about 2^31 and at the end of their width, are written into the record.
 * Prints one line, and ends with 1 where anything differs.
 */
#include "bytes.h"
#include "plain.h"
#include "stellcircle.h"
#include <inttypes.h>
#include <stdio.h>
#include <stdlib.h>
#include <string.h>

PLAIN(plain_)

enum { CALLS = 400000, CLIENTS = 11, DEVICES = 6, ROOM = 80 };

/* The record with guards on either side, which no call may touch. */
static struct {
    uint8_t before[64];
    struct sc_record r;
    uint8_t after[64];
} held;
static struct plain_record plain;
static unsigned long differences;

static void expect(int good, const char *what, unsigned long n)
{
    if (!good && differences++ < 10)
        fprintf(stderr, "%s (%lu) differs\n", what, n);
}

/* An answer beside plain C's. Each of these has to come up among the random calls. */
static const uint32_t answers[] = {0, 2, 17, 22, 28, 70, 10008, 10013, 10024, 10025, 10033, 10034, 10036, 10049, 10062, SC_HANDED_ON};
enum { ANSWERS = sizeof answers / sizeof answers[0] };
static unsigned long seen[ANSWERS];

static void same(uint32_t x, uint32_t y, const char *what, unsigned long n)
{
    expect(x == y, what, n);
    for (int i = 0; i < ANSWERS; i++)
        seen[i] += x == answers[i];
}

static void guards(unsigned long n)
{
    for (size_t i = 0; i < 64; i++)
        if (held.before[i] != 0x77 || held.after[i] != 0x77)
            expect(0, "a byte beside the record", n);
}

/* ---- what a record holds: 64 files, then the two counts, grace and the edition. A file: its number; its places, each of the two halves of a device's id and whether it
 * is there, is blamed and is a proxy; eight intents; whether there is such a file, and its mark. An intent: its client; its stateid's other as two numbers,
 * of 8 bytes and of 4, and its seqid, where 0 is no stateid; whether it is there, and is reclaimed. */
enum { HIGH = 8, LOW = 16, SEQID = 20, TAKEN = 24, RECLAIMED = 25, INTENT_SIZE = 32 };
enum { MIRRORS = 8, MIRROR_SIZE = 24, INTENTS = MIRRORS + SC_PLACES * MIRROR_SIZE, FLAGS = INTENTS + 8 * INTENT_SIZE, FILE_SIZE = FLAGS + 8, HEAD = 64 * FILE_SIZE, GRACE = HEAD + 2, OLD };

/* The id of a device as the record holds it: two numbers. */
static int holds(const uint8_t *mirror, const uint8_t *id)
{
    uint64_t high, low;
    memcpy(&high, mirror, 8);
    memcpy(&low, mirror + 8, 8);
    return high == be64(id) && low == be64(id + 8);
}

/* Whether a place of a file is as plain C has it: nothing, a mirror or the proxy, blamed or not. */
static int same_place(const uint8_t *mirror, const struct plain_file *f, size_t i)
{
    int proxy = i == PLAIN_PROXY && f->proxy, there = i < f->mirror_count || proxy;
    return mirror[16] == there && mirror[17] == (f->blamed >> i & 1) && mirror[18] == proxy && (!there || holds(mirror, f->devices[i]));
}

/* Whether an intent is of the client, and has its stateid, or none, as plain C has it. */
static int same_intent(const uint8_t *at, const struct plain_intent *i)
{
    uint64_t client, high;
    uint32_t low, seqid;
    memcpy(&client, at, 8);
    memcpy(&high, at + HIGH, 8);
    memcpy(&low, at + LOW, 4);
    memcpy(&seqid, at + SEQID, 4);
    return at[TAKEN] == 1 && client == i->client && seqid == i->seqid && (seqid == 0 || (high == be64(i->other) && low == be32(i->other + 8)));
}

/* Whether the intents of a file are as plain C has them, both in the order in which they came. */
static int same_intents(const uint8_t *file, const struct plain_file *f)
{
    for (size_t i = 0; i < 8; i++) {
        const uint8_t *at = file + INTENTS + INTENT_SIZE * i;
        if (i < f->intent_count ? !same_intent(at, &f->intents[i]) : at[TAKEN] != 0)
            return 0;
    }
    return 1;
}

/* The files of the record beside plain C's, both by rising number. */
static void compare_files(unsigned long n)
{
    const uint8_t *at = (const uint8_t *)&held.r;
    for (size_t k = 0; k < 64; k++, at += FILE_SIZE) {
        const struct plain_file *f = &plain.files[k];
        int good = at[FLAGS] == (k < plain.count);
        for (size_t i = 0; i < SC_PLACES && k < plain.count; i++)
            good = good && same_place(at + MIRRORS + MIRROR_SIZE * i, f, i);
        expect(good && (k >= plain.count || at[FLAGS + 1] == f->marked), "the mirrors, the proxy, the blame or the mark of a file", n);
        expect(k >= plain.count || same_intents(at, f), "the intents of a file, or their stateids", n);
    }
}

/* ---- where a record lies: fresh writes every field, to the last, and no byte past the struct */
static void layout(void)
{
    static uint8_t one[sizeof held.r];
    memset(&held, 0x77, sizeof held);
    memset(&held.r, 0x00, sizeof held.r);
    sc_record_fresh(&held.r);
    memcpy(one, &held.r, sizeof one);
    guards(0);
    memset(&held.r, 0xff, sizeof held.r);
    sc_record_fresh(&held.r);
    guards(1);
    const uint8_t *two = (const uint8_t *)&held.r;
    for (size_t f = 0; f < 64; f++) {
        size_t at = FILE_SIZE * f;
        int same = memcmp(one + at, two + at, 8) == 0 && memcmp(one + at + FLAGS, two + at + FLAGS, 2) == 0;
        for (size_t m = 0; m < SC_PLACES; m++)
            same = same && memcmp(one + at + MIRRORS + MIRROR_SIZE * m, two + at + MIRRORS + MIRROR_SIZE * m, 19) == 0;
        for (size_t i = 0; i < 8; i++)
            same = same && memcmp(one + at + INTENTS + INTENT_SIZE * i, two + at + INTENTS + INTENT_SIZE * i, RECLAIMED + 1) == 0;
        expect(same, "a fresh file", f);
    }
    for (size_t i = HEAD; i <= OLD; i++)
        expect(one[i] == 0 && two[i] == 0, "fresh counts, grace and edition", i);
    sc_record_fresh_old(&held.r);
    expect(two[GRACE] == 0 && two[OLD] == 1, "the old edition", 0);
    expect(sc_record_restart(&held.r) == 0 && two[GRACE] == 1, "grace after a restart", 0);
    expect(_Alignof(struct sc_record) == _Alignof(uint64_t) && sizeof(struct sc_record) == HEAD + 8, "the struct", 0);
}

/* ---- requests */
static uint8_t request[4200], device[DEVICES][16];

/* One error record of so many device errors of the devices from `first` on, each with the status. */
static size_t report(int first, int many, uint32_t status)
{
    memset(request, 0, sizeof request);
    put32(request + 4, 4);
    put32(request + 8, 2);
    put32(request + 12, 1);
    put32(request + 48, (uint32_t)(44 + 24 * many));
    put32(request + 52, 1);
    put32(request + 88, (uint32_t)many);
    for (int i = 0; i < many; i++) {
        memcpy(request + 92 + 24 * i, device[(first + i) % DEVICES], 16);
        put32(request + 108 + 24 * i, status);
    }
    return (size_t)(52 + 44 + 24 * many);
}

/* ---- totals */
/* What is lent for the totals of one call, with a word past each slice that no call may touch. */
enum { LENT = 7, FILL = 0x5c };

struct lent {
    uint64_t read[LENT + 1], written[LENT + 1];
    uint32_t before, read_over, between, written_over, after;
    size_t read_len, written_len;
};

static struct lent lend(size_t read_len, size_t written_len)
{
    struct lent t;
    memset(&t, FILL, sizeof t);
    t.read_len = read_len;
    t.written_len = written_len;
    return t;
}

/* Whether a column is so many sums, zeros in the places past them that are lent, and what it was filled with after that. */
static int column(const uint64_t *lent, size_t len, const uint64_t *sums)
{
    uint64_t filled;
    memset(&filled, FILL, sizeof filled);
    for (size_t i = 0; i <= LENT; i++)
        if (lent[i] != (i >= len ? filled : i < SC_PLACES ? sums[i] : 0))
            return 0;
    return 1;
}

/* Whether the numbers beside the flags are as they were. */
static int flags_alone(const struct lent *t)
{
    uint32_t filled;
    memset(&filled, FILL, sizeof filled);
    return t->before == filled && t->between == filled && t->after == filled;
}

/* ---- lists */
/* In place of a direction: the call that takes none. */
#define UNASKED (UINT64_C(1) << 32)

/* One list of the library. */
static uint32_t list(int idle, uint64_t direction, uint64_t *files, size_t a, uint8_t *sources, size_t b, uint64_t *count)
{
    if (direction == UNASKED)
        return (idle ? sc_record_offered : sc_record_resilver)(&held.r, files, a, sources, b, count);
    return (idle ? sc_record_offered_by : sc_record_resilver_by)(&held.r, files, a, sources, b, count, (uint32_t)direction);
}

static int listed(int idle, uint64_t direction, uint64_t n, uint64_t file, uint8_t source)
{
    uint64_t files[2] = {5, 5}, count = 9;
    uint8_t sources[2] = {6, 6};
    uint32_t answer = list(idle, direction, files, 2, sources, 2, &count);
    return answer == 0 && count == n && (n == 0 ? files[0] == 5 && sources[0] == 6 : files[0] == file && sources[0] == source) && files[1] == 5 && sources[1] == 6;
}

/* A list of the file, or of none, with this lowest and this highest source, which is also the one where nobody asks. */
static int lists(int idle, uint64_t n, uint64_t file, uint8_t lowest, uint8_t highest)
{
    return listed(idle, SC_LOWEST, n, file, lowest) && listed(idle, SC_HIGHEST, n, file, highest) && listed(idle, UNASKED, n, file, highest);
}

/* ---- K10 to K13 */
static void example(int reclaims, int reports)
{
    uint8_t reply[30];
    memset(reply, 0x99, sizeof reply);
    sc_record_fresh(&held.r);
    expect(sc_record_register(&held.r, 7, device[0], 32) == 0 && sc_record_open(&held.r, 7, 1) == 0 && sc_record_restart(&held.r) == 0, "K10's start", 0);
    if (reclaims)
        expect(sc_record_reclaim(&held.r, 7, 1) == 0, "K11's reclaim", 0);
    if (reports >= 0) {
        static const uint8_t good[24] = {0, 0, 0, 0, 0, 0, 0, 1};
        static const uint64_t none[SC_PLACES];
        size_t n = report(reports, 1, 5);
        struct lent t = lend(SC_PLACES, SC_PLACES);
        expect(n == 120 && sc_record_layoutreturn(&held.r, 7, 1, request, n, reply, 30, t.read, SC_PLACES, t.written, SC_PLACES, &t.read_over, &t.written_over) == 0, "a report", 0);
        expect(column(t.read, SC_PLACES, none) && column(t.written, SC_PLACES, none) && t.read_over == 0 && t.written_over == 0 && flags_alone(&t), "a report's totals", 0);
        expect(memcmp(reply, good, 24) == 0 && reply[24] == 0x99 && reply[29] == 0x99, "a reply", 0);
    }
    expect(sc_record_end_grace(&held.r) == 0, "the end of grace", 0);
}

static void examples(void)
{
    example(0, -1);
    expect(lists(0, 1, 7, 0, 1), "K10", 0);
    example(1, -1);
    expect(lists(0, 0, 0, 0, 0), "K11", 0);
    example(1, 0);
    expect(lists(0, 1, 7, 1, 1) && lists(1, 0, 0, 0, 0) && sc_record_close(&held.r, 7, 1) == 0 && lists(1, 1, 7, 1, 1), "K12", 0);
    example(1, 2);
    expect(lists(0, 1, 7, 0, 1), "K13", 0);
}

/* ---- totals of one file with the mirrors of devices 0, 1 and 2, and a client with an intent */
/* One statistics record more at the end of a request that ends with them; its strings and handle have so many bytes. Its latencies count other bytes. */
static size_t statistic(size_t len, size_t count, const uint8_t *id, uint64_t read, uint64_t written, const size_t *opaques)
{
    uint8_t *s = request + len;
    put32(request + count, request[count + 3] + 1u);
    memset(s, 0x11, 80);
    put64(s + 40, read);
    put64(s + 56, written);
    memcpy(s + 64, id, 16);
    s += 80;
    for (int i = 0; i < 3; i++) {
        size_t padded = (opaques[i] + 3) / 4 * 4;
        put32(s, (uint32_t)opaques[i]);
        memset(s + 4, 0x7a, opaques[i]);
        memset(s + 4 + opaques[i], 0, padded - opaques[i]);
        s += 4 + padded;
    }
    memset(s, 0x22, 140);
    put32(s + 140, 1);
    s += 144;
    put32(request + 48, (uint32_t)(s - request - 52));
    return (size_t)(s - request);
}

/* A request of the client 1 on the file 7 gets the answer; its totals are so many bytes and flags, or zeros. */
static void totals(const char *what, size_t len, uint64_t client, size_t room, uint32_t answer, const uint64_t *read, const uint64_t *written, uint32_t read_over, uint32_t written_over)
{
    static const size_t lens[] = {0, 1, 3, 4, 5, 6, 7};
    for (size_t i = 0; i < 7; i++) {
        uint8_t reply[24];
        struct lent t = lend(lens[i], lens[(i + 2) % 7]);
        uint32_t x = sc_record_layoutreturn(&held.r, 7, client, request, len, reply, room, t.read, t.read_len, t.written, t.written_len, &t.read_over, &t.written_over);
        expect(x == answer, what, i);
        expect(column(t.read, t.read_len, read) && t.read_over == read_over, what, 10 + i);
        expect(column(t.written, t.written_len, written) && t.written_over == written_over, what, 20 + i);
        expect(flags_alone(&t), what, 30 + i);
    }
}

/* The file in grace, in a record of either edition. */
static void with_mirrors(int old)
{
    (old ? sc_record_fresh_old : sc_record_fresh)(&held.r);
    expect(sc_record_register(&held.r, 7, device[0], 48) == 0 && sc_record_open(&held.r, 7, 1) == 0 && sc_record_restart(&held.r) == 0, "a file with three mirrors", 0);
}

static void edges(void)
{
    static const uint64_t most = UINT64_MAX, none[SC_PLACES], sums[SC_PLACES] = {UINT64_MAX, 3, UINT64_MAX}, other[SC_PLACES] = {7, UINT64_MAX, UINT64_MAX};
    static const size_t opaques[3] = {3, 127, 128};
    with_mirrors(0);
    /* device 0 reads 2^64 - 1 in two records, device 2 one byte more; device 1 writes and device 2 writes too much; device 3 is no mirror */
    size_t count = report(0, 1, 0) - 4, len = count + 4;
    len = statistic(len, count, device[0], most - 5, 3, opaques);
    len = statistic(len, count, device[3], most, most, opaques);
    len = statistic(len, count, device[2], most, most, opaques);
    len = statistic(len, count, device[0], 5, 4, opaques);
    len = statistic(len, count, device[1], 3, most, opaques);
    len = statistic(len, count, device[2], 1, 0, opaques);
    len = statistic(len, count, device[2], 9, most, opaques);
    totals("sums at the edge", len, 1, 24, 0, sums, other, 4, 4);
    expect(lists(0, 0, 0, 0, 0), "statistics mark nothing", 0);
    totals("a client without an intent", len, 2, 24, 10034, none, none, 0, 0);
    totals("no room for the reply", len, 1, 23, 28, none, none, 0, 0);
    totals("a byte too few", len - 1, 1, 24, 10036, none, none, 0, 0);
    request[len - 1] = 2;
    totals("a boolean above 1", len, 1, 24, 10036, none, none, 0, 0);
    request[len - 1] = 1;
    request[12 + 3] = 2;
    totals("handed on", 16, 1, 24, SC_HANDED_ON, none, none, 0, 0);
    request[12 + 3] = 1;
    memcpy(request + 92, device[3], 16);
    totals("an ignored report", len, 1, 24, 0, none, none, 0, 0);
    expect(lists(0, 1, 7, 0, 2), "an ignored report marks", 0);
    memcpy(request + 92, device[0], 16);
    with_mirrors(1);
    totals("an old record", len, 1, 24, 10025, none, none, 0, 0);
    with_mirrors(0);
    expect(sc_record_end_grace(&held.r) == 0, "the end of grace", 0);
    totals("out of grace", len, 1, 24, 10033, none, none, 0, 0);
}

/* ---- proxies: file 7 with the mirrors of devices 0 to 2, or to 3, and of device 4 as its proxy */
static uint32_t add(uint64_t file, int k) { return sc_record_add_proxy(&held.r, file, device[k], 16); }
static uint32_t removed(uint64_t file) { return sc_record_remove_proxy(&held.r, file); }

/* One byte of the place of the proxy of the one file: 16 whether it is there, 17 its blame, 18 whether it is a proxy. */
static int at_proxy(size_t k) { return ((const uint8_t *)&held.r)[MIRRORS + MIRROR_SIZE * SC_PROXY + k]; }

static void with_proxy(size_t mirrors)
{
    sc_record_fresh(&held.r);
    expect(sc_record_register(&held.r, 7, device[0], 16 * mirrors) == 0 && add(7, 4) == 0 && sc_record_open(&held.r, 7, 1) == 0 && sc_record_restart(&held.r) == 0,
           "a file with a proxy", mirrors);
}

/* The refusals of both calls, in their order; bytes of any length, of which none is read where they are not 16. */
static void proxy_refusals(void)
{
    sc_record_fresh(&held.r);
    expect(add(7, 4) == 70 && removed(7) == 70, "a proxy of no file", 0);
    expect(sc_record_register(&held.r, 7, device[0], 48) == 0 && removed(7) == SC_NOENT, "a file without a proxy", 0);
    for (int has = 0; has < 2; has++) {
        for (size_t len = 0; len <= 48; len++)
            expect(len == 16 || sc_record_add_proxy(&held.r, 7, device[4], len) == 22, "a proxy that is not of 16 bytes", len);
        for (int k = 0; k < 3; k++)
            expect(add(7, k) == 22, "a proxy that is a mirror", (unsigned long)k);
        expect(add(7, 4) == (has ? 22 : 0) && add(7, 5) == 17, "a proxy that is there", (unsigned long)has);
    }
    expect(sc_record_restart(&held.r) == 0 && add(7, 3) == 10013 && add(8, 3) == 10013 && removed(7) == 10013 && removed(8) == 10013, "proxies in grace", 0);
    expect(sc_record_add_proxy(&held.r, 7, device[4], 0) == 10013 && sc_record_end_grace(&held.r) == 0, "a proxy of no bytes in grace", 0);
    expect(removed(7) == 0 && removed(7) == SC_NOENT && add(7, 5) == 0 && removed(7) == 0, "a proxy that goes, and another", 0);
}

/* Totals of the proxy at its own place, its blame, and what removing and repairing leave of it. */
static void proxies(void)
{
    static const uint64_t most = UINT64_MAX, read[SC_PLACES] = {1, 0, 2, 0, UINT64_MAX}, written[SC_PLACES] = {3, 0, 4, 0, UINT64_MAX}, none[SC_PLACES];
    static const size_t opaques[3] = {3, 127, 128};
    proxy_refusals();
    for (size_t mirrors = 3; mirrors <= 4; mirrors++) {
        with_proxy(mirrors);
        size_t count = report(4, 1, 0) - 4, len = count + 4;
        len = statistic(len, count, device[4], most, 5, opaques);
        len = statistic(len, count, device[0], 1, 3, opaques);
        len = statistic(len, count, device[5], 7, 7, opaques);
        len = statistic(len, count, device[4], 1, most - 5, opaques);
        len = statistic(len, count, device[2], 2, 4, opaques);
        totals("totals of a proxy", len, 1, 24, 0, read, written, 16, 0);
        expect(lists(0, 0, 0, 0, 0) && at_proxy(16) == 1 && at_proxy(17) == 0 && at_proxy(18) == 1, "a proxy that is named", mirrors);
        len = report(4, 1, 5);
        totals("a proxy that is blamed", len, 1, 24, 0, none, none, 0, 0);
        expect(lists(0, 1, 7, 0, (uint8_t)(mirrors - 1)) && at_proxy(17) == 1, "a proxy is no source", mirrors);
        len = report(0, (int)mirrors, 5);
        totals("mirrors that are blamed", len, 1, 24, 0, none, none, 0, 0);
        expect(lists(0, 1, 7, 255, 255), "none but the proxy is left", mirrors);
        expect(sc_record_end_grace(&held.r) == 0 && lists(1, 1, 7, 255, 255) && removed(7) == 0 && at_proxy(16) == 0 && at_proxy(17) == 0, "a removed proxy's blame", mirrors);
        expect(lists(1, 1, 7, 255, 255) && add(7, 4) == 0 && at_proxy(17) == 0 && lists(1, 1, 7, 255, 255), "a mark and the mirrors' blame without the proxy", mirrors);
        expect(sc_record_repaired(&held.r, 7) == 0 && lists(0, 0, 0, 0, 0) && add(7, 4) == 22 && add(7, 5) == 17, "a proxy after the repair", mirrors);
        expect(sc_record_forget(&held.r, 7) == 0 && removed(7) == 70 && sc_record_register(&held.r, 7, device[4], 16) == 0 && removed(7) == SC_NOENT, "a file registered again", mirrors);
    }
    with_proxy(3);
    report(4, 1, 5);
    totals("a proxy to be repaired", 120, 1, 24, 0, none, none, 0, 0);
    expect(at_proxy(17) == 1 && sc_record_end_grace(&held.r) == 0 && sc_record_repaired(&held.r, 7) == 0 && at_proxy(16) == 1 && at_proxy(17) == 0 && removed(7) == 0, "a repaired proxy", 0);
}

/* ---- stateids: file 7 with the mirrors of devices 0 to 2, and the client 1 */
/* A stateid of twelve equal bytes. */
static uint32_t set_up(uint64_t file, uint64_t client, int fill)
{
    uint8_t other[12];
    memset(other, fill, sizeof other);
    return sc_record_set_up_stateid(&held.r, file, client, other, sizeof other);
}

/* The seqid of the first intent of the first file, as the record holds it. */
static uint8_t *first_seqid(void) { return (uint8_t *)&held.r + INTENTS + SEQID; }

/* A return of the client 1 on the file 7 with such a stateid and so many device errors. What is refused changes nothing but the reply's status; the reply of
 * what is accepted has the raised stateid. */
static int ordinary(uint32_t seqid, int fill, int errors, uint32_t answer, uint32_t next)
{
    static struct sc_record before;
    uint8_t reply[30], wanted[30];
    size_t len = report(0, errors, 5);
    struct lent t = lend(SC_PLACES, SC_PLACES);
    memset(reply, 0x99, sizeof reply);
    memset(wanted, 0x99, sizeof wanted);
    put32(request + 32, seqid);
    memset(request + 36, fill, 12);
    memcpy(&before, &held.r, sizeof before);
    uint32_t x = sc_record_layoutreturn(&held.r, 7, 1, request, len, reply, 30, t.read, SC_PLACES, t.written, SC_PLACES, &t.read_over, &t.written_over);
    put32(wanted, answer);
    if (answer == 0) {
        put32(wanted + 4, 1);
        put32(wanted + 8, next);
        memset(wanted + 12, fill, 12);
    }
    return x == answer && memcmp(reply, wanted, sizeof reply) == 0 && (answer == 0 || memcmp(&before, &held.r, sizeof before) == 0);
}

/* The file, out of grace, in a record of either edition, with a stateid whose seqid is written into the record. */
static void with_stateid(int old, uint32_t seqid)
{
    (old ? sc_record_fresh_old : sc_record_fresh)(&held.r);
    expect(sc_record_register(&held.r, 7, device[0], 48) == 0 && sc_record_open(&held.r, 7, 1) == 0 && set_up(7, 1, 0x51) == 0, "a file with a stateid", old);
    memcpy(first_seqid(), &seqid, sizeof seqid);
}

/* The refusals of a set-up, in their order; bytes of any length, of which none is read where they are not 12. */
static void set_up_refusals(void)
{
    static const uint8_t bytes[32] = {1, 2, 3};
    sc_record_fresh(&held.r);
    expect(set_up(7, 1, 0x51) == 70 && sc_record_register(&held.r, 7, device[0], 48) == 0 && set_up(7, 1, 0x51) == 10025, "a stateid of no file or intent", 0);
    expect(sc_record_open(&held.r, 7, 1) == 0 && sc_record_open(&held.r, 7, 2) == 0 && set_up(7, 3, 0x51) == 10025, "a stateid of no intent", 0);
    for (size_t len = 0; len <= 32; len++)
        expect(len == 12 || sc_record_set_up_stateid(&held.r, 7, 1, bytes, len) == 22, "a stateid that is not of 12 bytes", len);
    expect(set_up(7, 1, 0) == 22 && set_up(7, 1, 0xff) == 22, "a stateid of zeros or of ones", 0);
    expect(set_up(7, 1, 0x51) == 0 && set_up(7, 1, 0x51) == 17 && set_up(7, 1, 0) == 17 && set_up(7, 2, 0x51) == 22 && set_up(7, 2, 0x52) == 0, "a stateid that is there", 0);
    expect(sc_record_set_up_stateid(&held.r, 7, 1, bytes, 0) == 17, "a stateid of no bytes where one is", 0);
    expect(sc_record_register(&held.r, 8, device[0], 48) == 0 && sc_record_open(&held.r, 8, 1) == 0 && set_up(8, 1, 0x52) == 22, "a stateid in use on another file", 0);
    expect(sc_record_close(&held.r, 7, 2) == 0 && set_up(8, 1, 0x52) == 0, "an other that was closed", 0);
    expect(sc_record_restart(&held.r) == 0 && set_up(7, 1, 0x53) == 10013 && set_up(9, 1, 0) == 10013 && sc_record_set_up_stateid(&held.r, 7, 1, bytes, 0) == 10013, "stateids in grace", 0);
}

/* Seqids beside the latest, whatever it is; 1 after the last one; and what a return leaves in either edition. */
static void stateids(void)
{
    static const uint32_t half = UINT32_C(1) << 31, last = UINT32_MAX;
    static const struct { uint32_t latest, given, answer, next; } some[] = {
        {1, 0, 0, 2}, {1, 1, 0, 2}, {1, 2, 10025, 0}, {1, last, 10024, 0}, {1, last - 1, 10024, 0},
        {last, last, 0, 1}, {last, 0, 0, 1}, {last, last - 1, 10024, 0}, {last, 1, 10025, 0}, {last, 2, 10025, 0},
        {last - 1, last - 1, 0, last}, {last - 1, last, 10025, 0}, {last - 1, 1, 10025, 0},
        {half, half, 0, half + 1}, {half, 0, 0, half + 1}, {half, 1, 10024, 0}, {half + 1, 1, 10025, 0}, {half + 2, 1, 10025, 0}, {half + 1, 2, 10024, 0},
        {half - 1, half - 1, 0, half}, {half - 1, half, 10025, 0}, {half - 1, last, 10025, 0}, {half - 1, 1, 10024, 0}, {half - 2, last, 10024, 0},
        {last, half - 1, 10025, 0}, {last, half, 10024, 0}, {last, half + 1, 10024, 0}, {1, half, 10025, 0}, {1, half + 1, 10025, 0}, {1, half + 2, 10024, 0},
        {5, half + 4, 10025, 0}, {5, half + 5, 10025, 0}, {5, half + 6, 10024, 0}, {5, last, 10024, 0},
    };
    set_up_refusals();
    for (int old = 0; old < 2; old++) {
        for (size_t k = 0; k < sizeof some / sizeof some[0]; k++) {
            with_stateid(old, some[k].latest);
            expect(ordinary(some[k].given, 0x51, 0, some[k].answer, some[k].next), "a seqid beside the latest", k);
            expect(ordinary(some[k].given, 0x52, 0, 10025, 0), "an other that the client does not hold", k);
        }
        with_stateid(old, last - 1);
        expect(ordinary(0, 0x51, 0, 0, last) && ordinary(last, 0x51, 0, 0, 1) && ordinary(last, 0x51, 0, 10024, 0) && ordinary(1, 0x51, 0, 0, 2), "around the wrap", (unsigned long)old);
        expect(lists(0, 0, 0, 0, 0) && ordinary(2, 0x51, 1, 0, 3) && (old ? lists(0, 0, 0, 0, 0) : lists(0, 1, 7, 1, 2)), "an error of device 0", (unsigned long)old);
        expect(ordinary(3, 0x51, 4, 0, 4) && (old ? lists(0, 0, 0, 0, 0) : lists(0, 1, 7, 1, 2)), "a device that is no mirror", (unsigned long)old);
        expect(sc_record_close(&held.r, 7, 1) == 0 && sc_record_open(&held.r, 7, 1) == 0 && ordinary(0, 0x51, 0, 10025, 0) && set_up(7, 1, 0x51) == 0, "closed and opened again", (unsigned long)old);
        expect(sc_record_restart(&held.r) == 0 && ordinary(0, 0x51, 0, 10013, 0) && sc_record_reclaim(&held.r, 7, 1) == 0 && sc_record_end_grace(&held.r) == 0, "in grace", (unsigned long)old);
        expect(ordinary(0, 0x51, 0, 10025, 0) && set_up(7, 1, 0x51) == 0 && ordinary(1, 0x51, 0, 0, 2), "after grace", (unsigned long)old);
    }
}

/* ---- counts */
/* What the library says of both, with a word before and after each that no call may touch. */
static int counts(uint64_t waiting, uint64_t offered)
{
    uint64_t lent[5] = {FILL, ~waiting, FILL, ~offered, FILL};
    sc_record_counts(&held.r, &lent[1], &lent[3]);
    return lent[0] == FILL && lent[1] == waiting && lent[2] == FILL && lent[3] == offered && lent[4] == FILL;
}

/* Puts both counts into the record, as no history would. */
static void put_counts(uint8_t waiting, uint8_t offered)
{
    ((uint8_t *)&held.r)[HEAD] = waiting;
    ((uint8_t *)&held.r)[HEAD + 1] = offered;
}

/* The counts of a record that no history leads to: kept modulo 2^8, asked by no call, and counted anew as grace ends. */
static void counts_astray(void)
{
    static const uint8_t most = UINT8_MAX;
    example(0, -1);
    expect(counts(1, 1), "the counts of a lost file", 0);
    put_counts(0, 0);
    expect(counts(0, 0) && lists(0, 1, 7, 0, 1) && sc_record_open(&held.r, 7, 1) == 0 && counts(0, most), "a count below 0", 0);
    expect(sc_record_close(&held.r, 7, 1) == 0 && counts(0, 0) && sc_record_repaired(&held.r, 7) == 0 && counts(most, most), "both counts below 0", 0);
    example(0, -1);
    put_counts(most, most);
    expect(sc_record_open(&held.r, 7, 1) == 0 && counts(most, most - 1U) && sc_record_close(&held.r, 7, 1) == 0 && counts(most, most), "the most that counts hold", 0);
    put_counts(5, most);
    expect(sc_record_open(&held.r, 7, 2) == 0 && sc_record_restart(&held.r) == 0 && counts(5, most - 1U), "a restart counts nothing", 0);
    expect(sc_record_end_grace(&held.r) == 0 && counts(1, 1) && lists(1, 1, 7, 0, 1), "the end of grace counts anew", 0);
    put_counts(9, 8);
    expect(sc_record_end_grace(&held.r) == 10033 && counts(9, 8), "a refused end counts nothing", 0);
    sc_record_fresh(&held.r);
    expect(counts(0, 0), "fresh counts", 0);
    example(1, -1);
    expect(sc_record_restart(&held.r) == 0, "a restart", 0);
    put_counts(most, most);
    size_t n = report(0, 1, 5);
    static const uint64_t none[SC_PLACES];
    totals("a report that wraps a count", n, 1, 24, 0, none, none, 0, 0);
    expect(counts(0, most) && lists(0, 1, 7, 1, 1), "a count past 255", 0);
}

/* ---- random calls */
static uint64_t seed = 1;

static uint64_t random64(void)
{
    seed ^= seed << 13;
    seed ^= seed >> 7;
    seed ^= seed << 17;
    return seed;
}

static uint64_t below(uint64_t n) { return random64() % n; }

/* A list into lent slices, which are filled before the call. */
struct listed {
    uint64_t files[ROOM], count, answer;
    uint8_t sources[ROOM];
};

/* The library's list, or plain C's. */
static void lend_list(struct listed *l, int ours, int idle, uint64_t direction, size_t a, size_t b)
{
    memset(l, 0x31, sizeof *l);
    if (ours)
        l->answer = list(idle, direction, l->files, a, l->sources, b, &l->count);
    else if (direction == UNASKED)
        l->answer = (idle ? plain_record_offered : plain_record_resilver)(&plain, l->files, a, l->sources, b, &l->count);
    else
        l->answer = (idle ? plain_record_offered_by : plain_record_resilver_by)(&plain, l->files, a, l->sources, b, &l->count, (uint32_t)direction);
}

/* Whether a list was refused for its direction, with a count of 0 and nothing else written. */
static int undirected(const struct listed *l)
{
    struct listed none;
    memset(&none, 0x31, sizeof none);
    none.answer = SC_INVAL;
    none.count = 0;
    return memcmp(l, &none, sizeof none) == 0;
}

/* How many lists were asked for from no direction; and of the files on lists, how many have one source from both ends, another from each, and none. */
static unsigned long astray, alike, otherwise, without;

/* A direction, UNASKED, or a number that is none: next to a direction, with one in some of its bytes, or any. */
static uint64_t any_direction(void)
{
    static const uint64_t some[] = {SC_LOWEST, SC_HIGHEST, UNASKED};
    static const uint32_t none[] = {0, 3, 4, 255, 256, 257, 258, 0x10001, 0x10002, 0x1000000, 0x2000000, 0x80000001, 0x80000002, UINT32_MAX - 1, UINT32_MAX};
    uint64_t kind = below(12);
    return kind < 9 ? some[kind % 3] : kind < 11 ? none[below(sizeof none / sizeof none[0])] : (uint32_t)random64();
}

/* Both ends of one list. */
static void both_ends(int idle)
{
    struct listed lowest, highest;
    lend_list(&lowest, 1, idle, SC_LOWEST, ROOM, ROOM);
    lend_list(&highest, 1, idle, SC_HIGHEST, ROOM, ROOM);
    for (size_t i = 0; i < lowest.count && i < ROOM; i++)
        *(lowest.sources[i] == 255 ? &without : lowest.sources[i] == highest.sources[i] ? &alike : &otherwise) += 1;
}

static void compare_lists(unsigned long n)
{
    struct listed x, y;
    for (int idle = 0; idle < 2; idle++) {
        size_t a = below(4) ? ROOM : below(ROOM), b = below(4) ? ROOM : below(ROOM);
        uint64_t direction = any_direction();
        int none = direction > SC_HIGHEST && direction != UNASKED;
        lend_list(&x, 1, idle, direction, a, b);
        lend_list(&y, 0, idle, direction, a, b);
        expect(memcmp(&x, &y, sizeof x) == 0, "a list", n);
        expect(undirected(&x) == none, "a list from no direction", n);
        astray += none != 0;
        both_ends(idle);
    }
}

/* How often a total was flagged, was 2^64 - 1 without a flag, and was neither that nor 0; how often one was a proxy's; and how often a proxy was blamed. */
static unsigned long flagged, full, counted, of_proxies, blamed_proxies;

/* So many statistics records of any devices at the end of a request, whose bytes often come to about 2^64. */
static size_t statistics(size_t len, uint64_t many)
{
    static const uint64_t some[] = {0, 1, 4096, UINT64_MAX / 2, UINT64_MAX / 2 + 1, UINT64_MAX - 1, UINT64_MAX};
    static const size_t lens[] = {0, 1, 4, 9, 127, 128};
    size_t count = len - 4;
    for (; many > 0; many--) {
        size_t opaques[3];
        for (int i = 0; i < 3; i++)
            opaques[i] = below(40) ? lens[below(6)] : 129;
        len = statistic(len, count, device[below(DEVICES)], some[below(7)], below(3) ? some[below(7)] : random64(), opaques);
    }
    return len;
}

static void tell(const uint64_t *sums, size_t len, uint32_t over)
{
    of_proxies += len > SC_PROXY && sums[SC_PROXY] != 0;
    for (size_t i = 0; i < len && i < SC_PLACES; i++) {
        flagged += over >> i & 1;
        full += sums[i] == UINT64_MAX && !(over >> i & 1);
        counted += sums[i] != UINT64_MAX && sums[i] != 0;
    }
}

/* A stateid that is a fixed string of RFC 8881, 8.2.3, or differs from one in its seqid, or in the last byte. */
static void special_stateid(void)
{
    static const uint32_t seqids[4] = {0, 1, 2, UINT32_MAX};
    put32(request + 32, seqids[below(4)]);
    memset(request + 36, below(2) ? 0 : 255, 12);
    request[47] ^= below(6) ? 0 : 1;
}

/* How many stateids were set up, and how many returns with one were accepted, older, newer or of an other that the client does not hold; and how often one was
 * the last before the wrap. */
static unsigned long set_ups, accepted, older, newer, unheld, wrapped;

/* Some intent with a stateid, of some file; NULL where a few tries find none. */
static struct plain_intent *any_holder(uint64_t *file, uint64_t *client)
{
    for (int tries = 0; tries < 40 && plain.count != 0; tries++) {
        struct plain_file *f = &plain.files[below(plain.count)];
        struct plain_intent *i = f->intent_count == 0 ? NULL : &f->intents[below(f->intent_count)];
        if (i != NULL && i->seqid != 0) {
            *file = f->number;
            *client = i->client;
            return i;
        }
    }
    return NULL;
}

/* Writes an edge into the seqid of some stateid, of plain C and of the record, as no list of calls would. */
static void put_seqid(void)
{
    static const uint32_t edges[] = {UINT32_MAX, UINT32_MAX - 1, 1, 2, UINT32_C(1) << 31, (UINT32_C(1) << 31) - 1, (UINT32_C(1) << 31) + 1};
    uint64_t file, client;
    struct plain_intent *i = any_holder(&file, &client);
    if (i == NULL)
        return;
    i->seqid = below(3) ? edges[below(7)] : (uint32_t)random64() | 1;
    for (size_t k = 0; k < plain.count; k++)
        for (size_t m = 0; m < plain.files[k].intent_count; m++)
            if (&plain.files[k].intents[m] == i)
                memcpy((uint8_t *)&held.r + FILE_SIZE * k + INTENTS + INTENT_SIZE * m + SEQID, &i->seqid, 4);
}

/* A stateid of some client that holds one, with a seqid beside the latest, or nearly it. */
static void held_stateid(uint64_t *file, uint64_t *client)
{
    static const uint32_t behind[] = {0, 0, 0, 1, UINT32_MAX, (UINT32_C(1) << 31) - 1, UINT32_C(1) << 31, (UINT32_C(1) << 31) + 1, 2, 5};
    const struct plain_intent *i = any_holder(file, client);
    if (i == NULL)
        return;
    put32(request + 32, below(3) ? i->seqid - behind[below(10)] : below(4) ? 0 : (uint32_t)random64());
    memcpy(request + 36, i->other, 12);
    if (below(10) == 0)
        request[36 + below(12)] ^= (uint8_t)(1u << below(8));
    if (below(12) == 0)
        *client = below(CLIENTS);
}

/* Whether the client has a stateid with the request's other on the file. */
static int holds_other(uint64_t file, uint64_t client)
{
    for (size_t k = 0; k < plain.count; k++)
        for (size_t i = 0; plain.files[k].number == file && i < plain.files[k].intent_count; i++)
            if (plain.files[k].intents[i].client == client)
                return plain.files[k].intents[i].seqid != 0 && memcmp(plain.files[k].intents[i].other, request + 36, 12) == 0;
    return 0;
}

/* Counts a return by what step 4 makes of its stateid. */
static void tell_return(uint32_t answer, size_t len, const uint8_t *reply, int holds)
{
    uint32_t kind;
    uint64_t at, body;
    if (plain.grace || sc_layoutreturn_check(request, len, &kind, &at, &body) != 0 || kind != SC_REQUEST_ORDINARY)
        return;
    accepted += answer == 0;
    wrapped += answer == 0 && be32(reply + 8) == 1;
    older += answer == SC_OLD_STATEID;
    *(holds ? &newer : &unheld) += answer == SC_BAD_STATEID;
}

/* A stateid for a client's intent, of few others so that they meet; now and then of zeros or ones, or of another length. */
static void compare_set_up(unsigned long n, uint64_t file, uint64_t client)
{
    uint8_t other[24];
    size_t len = below(12) ? 12 : below(25);
    memset(other, (int)(below(20) ? 0x60 + below(3) : below(2) ? 0 : 255), sizeof other);
    if (below(20) != 0)
        other[below(3) * 5 + 1] = (uint8_t)below(256);
    uint32_t x = sc_record_set_up_stateid(&held.r, file, client, other, len);
    same(x, plain_record_set_up_stateid(&plain, file, client, other, len), "set up a stateid", n);
    set_ups += x == 0;
}

static void compare_returns(unsigned long n, uint64_t file, uint64_t client)
{
    uint8_t reply[2][30];
    memset(reply, 0x44, sizeof reply);
    size_t len = report((int)below(DEVICES), below(3) ? 0 : (int)below(4), below(3) ? 5 : 0), room = below(8) ? 30 : below(30);
    struct lent t = lend(below(2) ? SC_PLACES : below(LENT + 1), below(2) ? SC_PLACES : below(LENT + 1)), u = t;
    if (below(3) != 0)
        len = statistics(len, below(6));
    if (below(6) == 0)
        special_stateid();
    else if (below(plain.grace ? 8 : 2) == 0)
        held_stateid(&file, &client);
    if (below(6) == 0)
        request[below(len)] ^= (uint8_t)(1u << below(8));
    if (below(10) == 0)
        len = below(len + 1);
    int holds = holds_other(file, client);
    uint32_t x = sc_record_layoutreturn(&held.r, file, client, request, len, reply[0], room, t.read, t.read_len, t.written, t.written_len, &t.read_over, &t.written_over);
    uint32_t y = plain_record_layoutreturn(&plain, file, client, request, len, reply[1], room, u.read, u.read_len, u.written, u.written_len, &u.read_over, &u.written_over);
    same(x, y, "a LAYOUTRETURN", n);
    expect(memcmp(t.read, u.read, sizeof t.read) == 0 && memcmp(t.written, u.written, sizeof t.written) == 0, "totals", n);
    expect(t.read_over == u.read_over && t.written_over == u.written_over && flags_alone(&t), "flags", n);
    tell(t.read, t.read_len, t.read_over);
    tell(t.written, t.written_len, t.written_over);
    expect(memcmp(reply[0], reply[1], sizeof reply[0]) == 0, "a reply", n);
    tell_return(x, len, reply[0], holds);
}

/* A proxy of any device, now and then of bytes that are no id. */
static void compare_added(unsigned long n, uint64_t file)
{
    uint8_t id[32];
    size_t len = below(12) ? 16 : below(33);
    memcpy(id, device[below(DEVICES)], 16);
    memcpy(id + 16, id, 16);
    same(sc_record_add_proxy(&held.r, file, id, len), plain_record_add_proxy(&plain, file, id, len), "add a proxy", n);
}

/* How often no file waited, some did of which none or a part was offered, and all of them were; and how often in grace. */
static unsigned long idle_counts, open_counts, part_counts, all_counts, grace_counts;

/* Both counts beside plain C's, and beside its files. */
static void compare_counts(unsigned long n)
{
    static struct sc_record before;
    uint64_t waiting, offered, marked = 0, ready = 0;
    plain_record_counts(&plain, &waiting, &offered);
    for (size_t k = 0; k < plain.count; k++) {
        marked += plain.files[k].marked;
        ready += plain.files[k].marked && plain.files[k].intent_count == 0;
    }
    expect(waiting == marked && offered == ready, "plain C's counts", n);
    memcpy(&before, &held.r, sizeof before);
    expect(counts(waiting, offered) && memcmp(&before, &held.r, sizeof before) == 0, "the counts", n);
    *(waiting == 0 ? &idle_counts : offered == 0 ? &open_counts : offered < waiting ? &part_counts : &all_counts) += 1;
    grace_counts += waiting != 0 && plain.grace;
}

static void count_blamed_proxies(void)
{
    for (size_t k = 0; k < plain.count; k++)
        blamed_proxies += plain.files[k].blamed >> PLAIN_PROXY & 1;
}

static void random_calls(int old)
{
    (old ? sc_record_fresh_old : sc_record_fresh)(&held.r);
    (old ? plain_record_fresh_old : plain_record_fresh)(&plain);
    for (unsigned long n = 0; n < CALLS; n++) {
        uint64_t file = 10 * below(below(2) ? 70 : 6), client = below(below(2) ? CLIENTS : 2);
        uint8_t mirrors[96];
        size_t len = below(8) ? 16 * (1 + below(4)) : below(96);
        int first = (int)below(DEVICES);
        for (size_t i = 0; i < 6; i++)
            memcpy(mirrors + 16 * i, device[below(20) ? (first + (int)i) % DEVICES : first], 16);
        uint64_t kind = below(260);
        if (kind < 2) {
            same(sc_record_restart(&held.r), plain_record_restart(&plain), "restart", n);
        } else if (kind < 4) {
            same(sc_record_end_grace(&held.r), plain_record_end_grace(&plain), "end of grace", n);
        } else if (kind < 40) {
            same(sc_record_register(&held.r, file, mirrors, len), plain_record_register(&plain, file, mirrors, len), "register", n);
        } else if (kind < 80) {
            same(sc_record_open(&held.r, file, client), plain_record_open(&plain, file, client), "open", n);
        } else if (kind < 110) {
            same(sc_record_reclaim(&held.r, file, client), plain_record_reclaim(&plain, file, client), "reclaim", n);
        } else if (kind < 140) {
            same(sc_record_close(&held.r, file, client), plain_record_close(&plain, file, client), "close", n);
        } else if (kind < 155) {
            same(sc_record_repaired(&held.r, file), plain_record_repaired(&plain, file), "repaired", n);
        } else if (kind < 160) {
            same(sc_record_forget(&held.r, file), plain_record_forget(&plain, file), "forget", n);
        } else if (kind < 190) {
            compare_returns(n, file, client);
        } else if (kind < 200) {
            compare_lists(n);
        } else if (kind < 215) {
            compare_added(n, file);
        } else if (kind < 225) {
            same(sc_record_remove_proxy(&held.r, file), plain_record_remove_proxy(&plain, file), "remove a proxy", n);
        } else if (kind < 245) {
            compare_set_up(n, file, client);
        } else if (kind < 258) {
            compare_returns(n, file, client);
        } else {
            put_seqid();
        }
        guards(n);
        compare_files(n);
        compare_counts(n);
        count_blamed_proxies();
    }
    for (int i = 0; !old && i < ANSWERS; i++)
        expect(seen[i] != 0, "an answer that never came up", answers[i]);
    expect(astray != 0 && alike != 0 && otherwise != 0 && (without != 0 || old), "sources of the random calls: other from the other end, or not, or none", without);
    expect(idle_counts != 0 && open_counts != 0 && part_counts != 0 && all_counts != 0 && grace_counts != 0, "counts of the random calls: none, open, a part or all", part_counts);
    expect((of_proxies != 0 && blamed_proxies != 0) == !old, "proxies of the random calls: with totals, or blamed", of_proxies);
    expect(set_ups != 0 && accepted != 0 && older != 0 && newer != 0 && unheld != 0 && wrapped != 0, "returns of the random calls: accepted, older, newer, of no stateid, or the last before the wrap", accepted);
    expect((flagged != 0 && full != 0 && counted != 0) == !old, "totals of the random calls: flags, 2^64 - 1 without one, or others", flagged);
}

int main(int argc, char **argv)
{
    if (argc > 1)
        seed = strtoull(argv[1], NULL, 10) | 1;
    for (int i = 0; i < DEVICES; i++)
        memset(device[i], 0xa0 + i, 16);
    layout();
    examples();
    edges();
    proxies();
    stateids();
    counts_astray();
    random_calls(1);
    random_calls(0);
    printf("capi: %d random calls beside plain C, with %lu totals (%lu flagged, %lu of 2^64 - 1 that are not; %lu columns with a proxy's); %lu lists from no direction; of the files\n"
           "    on lists %lu have another source from the other end, %lu the same, %lu none; counts after each call, %lu with files that wait, %lu of these in grace;\n"
           "    %lu stateids set up, %lu returns with one accepted, %lu of these with the last seqid before the wrap, %lu older, %lu newer;\n"
           "    the struct, totals at the edge, proxies, stateids, counts that are wrong and K10 to K13: %lu differences\n",
           CALLS, counted + flagged + full, flagged, full, of_proxies, astray, otherwise, alike, without, open_counts + part_counts + all_counts, grace_counts,
           set_ups, accepted, wrapped, older, newer, differences);
    return differences != 0;
}
