/* The fuzz target for the wire checks: layout bodies, lists of extents to be merged, LAYOUTCOMMITs, and LAYOUTRETURN on a record of one file. Any difference from plain C
   (tests/plain) aborts. The first byte chooses: bit 0 layouts or LAYOUTRETURN. Layouts: bit 1 a list to be merged, else bit 2 a LAYOUTCOMMIT, else a body; of a LAYOUTCOMMIT bits 3 to 5 the block
   size, 6 and 7 the room for its body. LAYOUTRETURN: bit 1 grace, 2 and 3 whether the file is registered, has an intent, or has an intent and a proxy, 4 and 5 how many mirrors, 6 and 7 the
   edition and the reply's room. The other bytes are the body, the list or the request, whose length also chooses how many totals are lent, the bytes of a device that is to be a proxy, and which stateid the client has out of grace, mostly the request's own, and how often it is raised before; of a LAYOUTCOMMIT a count of extents (2 bytes), the extents and the commit list. The libraries are not instrumented
   (plain C is, and steers towards new cases), so every body, list, request, reply and total lent to them lies against a page that can't be touched, once at its start and once at its end.
   In this order: pages; layout bodies; lists; merging; LAYOUTCOMMIT; reports; the record; proxies; stateids; LAYOUTRETURN; the target. */
#define _DEFAULT_SOURCE
#include "bytes.h"
#include "plain.h"
#include "stellcircle.h"

#include <inttypes.h>
#include <stdio.h>
#include <stdlib.h>
#include <string.h>
#include <sys/mman.h>

enum { PAGE = 4096, REGION = 17 * PAGE, FILE_NUMBER = 7, CLIENT = 1, FILL = 0x5a };

PLAIN(plain_)

int LLVMFuzzerTestOneInput(const uint8_t *data, size_t size);

static void differ(const char *what, uint64_t got, uint64_t wanted)
{
    fprintf(stderr, "wire: %s: the library says %" PRIu64 ", plain C %" PRIu64 "\n", what, got, wanted);
    abort();
}

static void same(const char *what, uint64_t got, uint64_t wanted)
{
    if (got != wanted)
        differ(what, got, wanted);
}

/* ---- Pages ---- */

/* A region between two pages that can't be touched. */
static uint8_t *make_region(void)
{
    uint8_t *all = mmap(NULL, REGION + 2 * PAGE, PROT_NONE, MAP_PRIVATE | MAP_ANONYMOUS, -1, 0);
    if (all == MAP_FAILED || mprotect(all + PAGE, REGION, PROT_READ | PROT_WRITE) != 0)
        abort();
    return all + PAGE;
}

/* `len` bytes at the region's start or end. */
static uint8_t *at_edge(uint8_t *region, size_t len, bool end)
{
    return end ? region + REGION - len : region;
}

/* A region for each thing that is lent. */
enum { INPUT, REPLY, READ, WRITTEN, READ_OVER, WRITTEN_OVER, WANTED, STORAGES, STATES, COMMITS, DEVICE, OTHER, WAITING, OFFERED, REGIONS };

static uint8_t *regions[REGIONS];

/* The input's bytes at an edge. */
static uint8_t *lend_input(const uint8_t *bytes, size_t len, bool end)
{
    uint8_t *lent = at_edge(regions[INPUT], len, end);
    memcpy(lent, bytes, len);
    return lent;
}

/* ---- Layout bodies ---- */

/* The extent at a place, of any bytes and for any count, of each kind. */
static void extent(const uint8_t *body, size_t len, uint64_t n, uint64_t i)
{
    uint64_t a[2][4];
    uint32_t state[2], handle[2];
    uint32_t number = sc_layout_extent(body, len, n, i, &a[0][0], &a[0][1], &a[0][2], &a[0][3], &state[0]);
    same("extent number", number, plain_layout_extent(body, len, n, i, &a[1][0], &a[1][1], &a[1][2], &a[1][3], &state[1]));
    same("extent", memcmp(a[0], a[1], sizeof a[0]) == 0 && state[0] == state[1], true);
    number = sc_rdma_layout_extent(body, len, n, i, &a[0][0], &a[0][1], &handle[0], &a[0][2], &a[0][3], &state[0]);
    same("RDMA extent number", number, plain_rdma_layout_extent(body, len, n, i, &a[1][0], &a[1][1], &handle[1], &a[1][2], &a[1][3], &state[1]));
    same("RDMA extent", memcmp(a[0], a[1], sizeof a[0]) == 0 && state[0] == state[1] && handle[0] == handle[1], true);
}

/* The check of a kind, beside plain C, and extents of the body. */
typedef uint32_t check_body(const uint8_t *, size_t, uint64_t *);

static void checked(check_body *check, check_body *plain, const uint8_t *bytes, size_t len, bool end)
{
    uint64_t place = UINT64_MAX, wanted_place;
    uint32_t wanted = plain(bytes, len, &wanted_place);
    uint8_t *body = lend_input(bytes, len, end);
    uint32_t number = check(body, len, &place);
    same("layout number", number, wanted);
    same("layout place", place, wanted_place);
    for (uint64_t i = 0; i < 3; i++)
        extent(body, len, place, number == 0 ? i * (place / 2) : i);
    same("layout body kept", memcmp(body, bytes, len) == 0, true);
}

static void layout(const uint8_t *bytes, size_t len, bool end)
{
    checked(sc_layout_check, plain_layout_check, bytes, len, end);
    checked(sc_rdma_layout_check, plain_rdma_layout_check, bytes, len, end);
}

/* ---- Lists ---- */

/* A list of extents, lent as columns at an edge each; and the buffers for a body, the library's and plain C's. */
enum { LONGEST = 1400 };

struct list {
    size_t n, room;
    uint8_t *devs, *out, *wanted;
    uint64_t *offs, *lens, *stos;
    uint32_t *sts;
};

static struct list lend_list(const uint8_t *bytes, size_t n, size_t room, bool end)
{
    struct list l = {.n = n, .room = room, .devs = at_edge(regions[INPUT], 16 * n, end), .out = at_edge(regions[REPLY], room, end), .wanted = at_edge(regions[WANTED], room, end)};
    l.offs = (uint64_t *)(void *)at_edge(regions[READ], 8 * n, end);
    l.lens = (uint64_t *)(void *)at_edge(regions[WRITTEN], 8 * n, end);
    l.stos = (uint64_t *)(void *)at_edge(regions[STORAGES], 8 * n, end);
    l.sts = (uint32_t *)(void *)at_edge(regions[STATES], 4 * n, end);
    for (size_t i = 0; i < n; i++) {
        memcpy(l.devs + 16 * i, bytes + 44 * i, 16);
        l.offs[i] = be64(bytes + 44 * i + 16);
        l.lens[i] = be64(bytes + 44 * i + 24);
        l.stos[i] = be64(bytes + 44 * i + 32);
        l.sts[i] = be32(bytes + 44 * i + 40);
    }
    memset(l.out, FILL, room);
    memset(l.wanted, FILL, room);
    return l;
}

/* A number and a place from each, and the same bytes; a body that is written passes the check. */
static void same_body(const struct list *l, uint32_t number, uint64_t place, uint32_t wanted, uint64_t wanted_place)
{
    same("list number", number, wanted);
    same("list place", place, wanted_place);
    same("list bytes", memcmp(l->out, l->wanted, l->room) == 0, true);
    if (number == 0)
        same("written body", sc_layout_check(l->out, 4 + 44 * (size_t)place, &wanted_place), 0);
}

#define COLUMNS(L) (L).devs, 16 * (L).n, (L).offs, (L).n, (L).lens, (L).n, (L).stos, (L).n, (L).sts, (L).n

/* ---- Merging ---- */

static void merge(const uint8_t *bytes, size_t len, bool end)
{
    size_t n = len / 44 < LONGEST ? len / 44 : LONGEST, room = len % 44 < 2 ? 4 + 44 * n : 4 + 44 * (len % 44 - 2);
    struct list l = lend_list(bytes, n, room, end);
    uint64_t place = UINT64_MAX, wanted_place = UINT64_MAX;
    uint32_t wanted = plain_layout_merge(COLUMNS(l), l.wanted, room, &wanted_place);
    uint32_t number = sc_layout_merge(COLUMNS(l), l.out, room, &place);
    same_body(&l, number, place, wanted, wanted_place);
}

/* ---- LAYOUTCOMMIT ---- */

static void commit(uint8_t choice, const uint8_t *bytes, size_t len, bool end)
{
    static const uint64_t blocks[8] = {1, 7, 512, 4096, UINT64_MAX, 0, 2, 1 << 16};
    if (len < 2)
        return;
    size_t asked = (size_t)bytes[0] << 8 | bytes[1], most = (len - 2) / 44 < LONGEST ? (len - 2) / 44 : LONGEST, n = asked < most ? asked : most;
    const uint8_t *ranges = bytes + 2 + 44 * n;
    size_t ranges_len = len - 2 - 44 * n;
    const size_t rooms[4] = {4 + 44 * 1024, 4 + 44 * n, 4 + 44 * (n + 1), 4 + 44 * (ranges_len % 16)};
    uint64_t block = blocks[choice >> 3 & 7], place = UINT64_MAX, wanted_place = UINT64_MAX;
    struct list l = lend_list(bytes + 2, n, rooms[choice >> 6], end);
    uint8_t *commits = at_edge(regions[COMMITS], ranges_len, end);
    memcpy(commits, ranges, ranges_len);
    uint32_t wanted = plain_layout_commit(ranges, ranges_len, block, COLUMNS(l), l.wanted, l.room, &wanted_place);
    uint32_t number = sc_layout_commit(commits, ranges_len, block, COLUMNS(l), l.out, l.room, &place);
    same("commit list kept", memcmp(commits, ranges, ranges_len) == 0, true);
    same_body(&l, number, place, wanted, wanted_place);
}

/* ---- Reports ---- */

/* The walks of a body, of its statistics records and of its device errors: each step beside plain C, and the end as the check says. */
static void statistics(const uint8_t *body, size_t len, uint32_t status)
{
    uint32_t left = 0, plain_left = 0, answer;
    uint64_t at = 0, plain_at = 0, device, read, written, plain_device, plain_read, plain_written;
    do {
        answer = sc_statistics_next(body, len, &at, &left, &device, &read, &written);
        same("statistics answer", answer, plain_statistics_next(body, len, &plain_at, &plain_left, &plain_device, &plain_read, &plain_written));
        same("statistics device", device, plain_device);
        same("statistics read", read, plain_read);
        same("statistics written", written, plain_written);
        same("statistics cursor", at == plain_at && left == plain_left, true);
    } while (answer == 1);
    same("statistics end", answer, status);
}

static void errors(const uint8_t *body, size_t len, uint32_t status)
{
    uint32_t records = 0, devices = 0, plain_records = 0, plain_devices = 0, error, plain_error, answer;
    uint64_t at = 0, plain_at = 0, device, plain_device;
    do {
        answer = sc_report_next(body, len, &at, &records, &devices, &device, &error);
        same("device error answer", answer, plain_report_next(body, len, &plain_at, &plain_records, &plain_devices, &plain_device, &plain_error));
        same("device error device", device, plain_device);
        same("device error status", error, plain_error);
        same("device error cursor", at == plain_at && records == plain_records && devices == plain_devices, true);
    } while (answer == 1);
    same("device errors end", answer, status);
}

static void report(const uint8_t *body, size_t len)
{
    uint32_t status = plain_report_check(body, len);
    same("report", sc_report_check(body, len), status);
    statistics(body, len, status);
    errors(body, len, status);
}

/* ---- The record ---- */

static const uint8_t devices[PLAIN_PLACES][16] = {
    {0xa0, 0xa0, 0xa0, 0xa0, 0xa0, 0xa0, 0xa0, 0xa0, 0xa0, 0xa0, 0xa0, 0xa0, 0xa0, 0xa0, 0xa0, 0x01},
    {0xb0, 0xb0, 0xb0, 0xb0, 0xb0, 0xb0, 0xb0, 0xb0, 0xb0, 0xb0, 0xb0, 0xb0, 0xb0, 0xb0, 0xb0, 0x02},
    {0xc0, 0xc0, 0xc0, 0xc0, 0xc0, 0xc0, 0xc0, 0xc0, 0xc0, 0xc0, 0xc0, 0xc0, 0xc0, 0xc0, 0xc0, 0x03},
    {0xd0, 0xd0, 0xd0, 0xd0, 0xd0, 0xd0, 0xd0, 0xd0, 0xd0, 0xd0, 0xd0, 0xd0, 0xd0, 0xd0, 0xd0, 0x04},
    {0xe0, 0xe0, 0xe0, 0xe0, 0xe0, 0xe0, 0xe0, 0xe0, 0xe0, 0xe0, 0xe0, 0xe0, 0xe0, 0xe0, 0xe0, 0x05},
};

/* What a file is, by bits 2 and 3 of a choice. */
enum { REGISTERED = 1, PROXIED = 2, OPENED = 3 };

/* The record's state as a choice says, in the library and in plain C. */
static void set_up(struct sc_record *r, struct plain_record *p, uint8_t choice)
{
    bool old = choice >> 6 == 1, in_grace = choice >> 1 & 1;
    int is = choice >> 2 & 3;
    size_t mirrors = 16 * ((choice >> 4 & 3) + 1u);
    (old ? sc_record_fresh_old : sc_record_fresh)(r);
    (old ? plain_record_fresh_old : plain_record_fresh)(p);
    if (is >= REGISTERED)
        same("register", sc_record_register(r, FILE_NUMBER, devices[0], mirrors) | plain_record_register(p, FILE_NUMBER, devices[0], mirrors), 0);
    if (is == PROXIED)
        same("add proxy", sc_record_add_proxy(r, FILE_NUMBER, devices[PLAIN_PROXY], 16) | plain_record_add_proxy(p, FILE_NUMBER, devices[PLAIN_PROXY], 16), 0);
    if (is >= PROXIED)
        same("open", sc_record_open(r, FILE_NUMBER, CLIENT) | plain_record_open(p, FILE_NUMBER, CLIENT), 0);
    if (in_grace)
        same("restart", sc_record_restart(r) | plain_record_restart(p), 0);
}

/* One list, with a place more than there are files: from a direction, from none that there is (3), or where nobody asks (0, and the call without one: UNASKED). */
enum { UNASKED = 4 };

static void check_list(const struct sc_record *r, const struct plain_record *p, bool idle, uint32_t direction)
{
    uint64_t files[2][2] = {{99, 99}, {99, 99}}, count[2] = {99, 99};
    uint8_t sources[2][2] = {{99, 99}, {99, 99}};
    uint32_t answer = direction == UNASKED ? (idle ? sc_record_offered : sc_record_resilver)(r, files[0], 2, sources[0], 2, &count[0])
                                           : (idle ? sc_record_offered_by : sc_record_resilver_by)(r, files[0], 2, sources[0], 2, &count[0], direction);
    uint32_t wanted = direction == UNASKED ? (idle ? plain_record_offered : plain_record_resilver)(p, files[1], 2, sources[1], 2, &count[1])
                                           : (idle ? plain_record_offered_by : plain_record_resilver_by)(p, files[1], 2, sources[1], 2, &count[1], direction);
    same("list", answer, wanted);
    same("list count", count[0], count[1]);
    for (int i = 0; i < 2; i++) {
        same("list file", files[0][i], files[1][i]);
        same("list source", sources[0][i], sources[1][i]);
    }
}

/* Both counts, lent at an edge. */
static void check_counts(const struct sc_record *r, const struct plain_record *p)
{
    for (int end = 0; end < 2; end++) {
        uint64_t *waiting = (uint64_t *)(void *)at_edge(regions[WAITING], 8, end), *offered = (uint64_t *)(void *)at_edge(regions[OFFERED], 8, end), wanted[2];
        plain_record_counts(p, &wanted[0], &wanted[1]);
        sc_record_counts(r, waiting, offered);
        same("count of files that wait", *waiting, wanted[0]);
        same("count of offered files", *offered, wanted[1]);
    }
}

static void check_lists(const struct sc_record *r, const struct plain_record *p)
{
    check_counts(r, p);
    for (uint32_t direction = 0; direction <= UNASKED; direction++) {
        check_list(r, p, false, direction);
        check_list(r, p, true, direction);
    }
}

/* Grace ends, which marks a file with an intent: blame without a mark would show. */
static void check_end(struct sc_record *r, struct plain_record *p)
{
    same("end of grace", sc_record_end_grace(r), plain_record_end_grace(p));
    check_lists(r, p);
}

/* ---- Proxies ---- */

/* A proxy of so many bytes, which lie at an edge. */
static void check_added(struct sc_record *r, struct plain_record *p, const uint8_t *bytes, size_t len, bool end)
{
    uint8_t *device = at_edge(regions[DEVICE], len, end);
    memcpy(device, bytes, len);
    same("add proxy", sc_record_add_proxy(r, FILE_NUMBER, device, len), plain_record_add_proxy(p, FILE_NUMBER, device, len));
    same("proxy kept", memcmp(device, bytes, len) == 0, true);
}

static void check_removed(struct sc_record *r, struct plain_record *p)
{
    same("remove proxy", sc_record_remove_proxy(r, FILE_NUMBER), plain_record_remove_proxy(p, FILE_NUMBER));
    check_lists(r, p);
}

/* Proxies that come and go, in grace or out of it: of the input's bytes where a device error would have its device, of other lengths too, and of each
 * device; a repair between. */
static void proxies(struct sc_record *r, struct plain_record *p, const uint8_t *bytes, size_t len, bool end)
{
    size_t at = len < 92 ? len : 92, most = len - at < 33 ? len - at : 33;
    check_added(r, p, bytes + at, most < 16 || len / 4 % 4 == 0 ? most : 16, end);
    check_removed(r, p);
    for (int i = 0; i < PLAIN_PLACES; i++)
        check_added(r, p, devices[i], 16, end);
    same("close", sc_record_close(r, FILE_NUMBER, CLIENT), plain_record_close(p, FILE_NUMBER, CLIENT));
    same("repaired", sc_record_repaired(r, FILE_NUMBER), plain_record_repaired(p, FILE_NUMBER));
    check_lists(r, p);
    check_removed(r, p);
    check_removed(r, p);
}

/* ---- Stateids ---- */

/* A stateid of so many bytes, which lie at an edge. */
static void check_stateid(struct sc_record *r, struct plain_record *p, uint64_t client, const uint8_t *bytes, size_t len, bool end)
{
    uint8_t *other = at_edge(regions[OTHER], len, end);
    memcpy(other, bytes, len);
    same("set up a stateid", sc_record_set_up_stateid(r, FILE_NUMBER, client, other, len), plain_record_set_up_stateid(p, FILE_NUMBER, client, other, len));
    same("other kept", memcmp(other, bytes, len) == 0, true);
}

/* A return of the client whose totals are not looked at: the answer and the reply. */
static void check_return(struct sc_record *r, struct plain_record *p, const uint8_t *bytes, size_t len)
{
    uint8_t reply[2][24];
    uint64_t read[1], written[1];
    uint32_t over[2];
    memset(reply, FILL, sizeof reply);
    uint32_t answer = sc_record_layoutreturn(r, FILE_NUMBER, CLIENT, bytes, len, reply[0], 24, read, 1, written, 1, &over[0], &over[1]);
    same("return", answer, plain_record_layoutreturn(p, FILE_NUMBER, CLIENT, bytes, len, reply[1], 24, read, 1, written, 1, &over[0], &over[1]));
    same("return's reply", memcmp(reply[0], reply[1], sizeof reply[0]) == 0, true);
}

/* Empty returns that are not of the latest seqid, or of a byte of the other that is another one. */
static void near(struct sc_record *r, struct plain_record *p, uint8_t *empty, size_t len)
{
    static const uint32_t half = UINT32_C(1) << 31;
    const uint32_t behind[5] = {1, UINT32_MAX, half - 1, half, half + 1};
    for (int i = 0; i < 5; i++) {
        put32(empty + 32, p->files[0].intents[0].seqid - behind[i]);
        check_return(r, p, empty, 60);
    }
    put32(empty + 32, p->files[0].intents[0].seqid);
    empty[36 + len / 4 % 12] ^= (uint8_t)(1u << len % 8);
    check_return(r, p, empty, 60);
}

/* The server restarts, the client reclaims, and grace ends: what it held has ended. */
static void restarted(struct sc_record *r, struct plain_record *p, const uint8_t *bytes, size_t len)
{
    same("restart", sc_record_restart(r), plain_record_restart(p));
    check_return(r, p, bytes, len);
    same("reclaim", sc_record_reclaim(r, FILE_NUMBER, CLIENT), plain_record_reclaim(p, FILE_NUMBER, CLIENT));
    check_end(r, p);
    check_return(r, p, bytes, len);
}

/* A stateid of the input's bytes where a request has its own, of other lengths first; a second one; and empty returns, none or so many that seqid 7, which
 * the Linux client's requests have, is the latest, and some that are refused. */
static void stateids(struct sc_record *r, struct plain_record *p, const uint8_t *bytes, size_t len, bool end)
{
    static const uint8_t fixed[12] = {0x51, 0x52};
    static const int rises[4] = {0, 6, 1, 6};
    size_t at = len < 36 ? len : 36, most = len - at < 25 ? len - at : 25;
    const uint8_t *other = most < 12 || len / 4 % 8 == 7 ? fixed : bytes + 36;
    check_stateid(r, p, CLIENT, bytes + at, most, end);
    check_stateid(r, p, CLIENT, other, 12, end);
    check_stateid(r, p, CLIENT, fixed, 12, end);
    check_stateid(r, p, CLIENT, bytes + at, most, end);
    check_stateid(r, p, CLIENT + 1, other, 12, end);
    uint8_t empty[60] = {[7] = 4, [11] = 3, [15] = 1, [51] = 8};
    memcpy(empty + 36, other, 12);
    for (int i = 0; i < rises[len / 4 % 4]; i++)
        check_return(r, p, empty, sizeof empty);
    near(r, p, empty, len);
}

/* ---- LAYOUTRETURN ---- */

/* One column of totals, and its flags: lent at an edge, and filled before the call; what plain C says of it. */
struct column {
    uint64_t *bytes, plain[7];
    size_t len;
    uint32_t *over, plain_over;
};

static struct column lend_column(int bytes, int over, size_t len, bool end)
{
    struct column c = {.bytes = (uint64_t *)(void *)at_edge(regions[bytes], 8 * len, end), .len = len, .over = (uint32_t *)(void *)at_edge(regions[over], 4, end)};
    memset(c.bytes, FILL, 8 * len);
    memset(c.over, FILL, 4);
    return c;
}

static void check_column(const struct column *c)
{
    for (size_t i = 0; i < c->len; i++)
        same("layoutreturn total", c->bytes[i], c->plain[i]);
    same("layoutreturn flags", *c->over, c->plain_over);
}

static void layoutreturn(uint8_t choice, const uint8_t *bytes, size_t len, bool end)
{
    static const size_t rooms[4] = {24, 24, 40, 23}, sizes[5] = {5, 0, 4, 6, 7};
    static struct sc_record r;
    static struct plain_record p;
    size_t room = rooms[choice >> 6];
    uint8_t wanted_reply[40], *reply = at_edge(regions[REPLY], room, end), *request = lend_input(bytes, len, end);
    struct column read = lend_column(READ, READ_OVER, sizes[len / 4 % 5], end);
    struct column written = lend_column(WRITTEN, WRITTEN_OVER, sizes[len / 20 % 5], end);
    memset(wanted_reply, FILL, sizeof wanted_reply);
    memset(reply, FILL, room);
    set_up(&r, &p, choice);
    stateids(&r, &p, bytes, len, end);
    uint32_t wanted = plain_record_layoutreturn(&p, FILE_NUMBER, CLIENT, bytes, len, wanted_reply, room, read.plain, read.len, written.plain, written.len,
                                                &read.plain_over, &written.plain_over);
    uint32_t answer = sc_record_layoutreturn(&r, FILE_NUMBER, CLIENT, request, len, reply, room, read.bytes, read.len, written.bytes, written.len,
                                             read.over, written.over);
    same("layoutreturn answer", answer, wanted);
    same("layoutreturn reply", memcmp(reply, wanted_reply, room) == 0, true);
    same("layoutreturn request kept", memcmp(request, bytes, len) == 0, true);
    check_column(&read);
    check_column(&written);
    check_lists(&r, &p);
    check_return(&r, &p, bytes, len);
    check_removed(&r, &p);
    check_end(&r, &p);
    proxies(&r, &p, bytes, len, end);
    check_return(&r, &p, bytes, len);
    same("open", sc_record_open(&r, FILE_NUMBER, CLIENT), plain_record_open(&p, FILE_NUMBER, CLIENT));
    check_return(&r, &p, bytes, len);
    stateids(&r, &p, bytes, len, end);
    check_return(&r, &p, bytes, len);
    check_lists(&r, &p);
    restarted(&r, &p, bytes, len);
    if (len >= 52)
        report(request + 52, len - 52);
}

/* ---- The target ---- */

int LLVMFuzzerTestOneInput(const uint8_t *data, size_t size)
{
    for (int i = 0; i < REGIONS; i++)
        if (regions[i] == NULL)
            regions[i] = make_region();
    if (size == 0 || size > 65536)
        return 0;
    for (int end = 0; end < 2; end++) {
        if (data[0] & 1)
            layoutreturn(data[0], data + 1, size - 1, end);
        else if ((data[0] & 6) == 4)
            commit(data[0], data + 1, size - 1, end);
        else
            (data[0] & 2 ? merge : layout)(data + 1, size - 1, end);
    }
    return 0;
}
