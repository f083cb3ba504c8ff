/* The stack that each call uses: those on a record, on layout bodies and requests, on epochs. The call runs on a painted stack of its own, once with each of two colours, and the lowest byte that is no
 * longer paint says how deep it went. The record has 62 or 63 files, one of them with 7 or 8 intents; each call is answered as written beside it.
 * Ends with 1 where a call takes more than LIMIT bytes or is answered otherwise. */
#define _XOPEN_SOURCE 700
#include "stellcircle.h"
#include <stdio.h>
#include <string.h>
#include <ucontext.h>

enum { STACK = 256 * 1024, FILES = 64, LIMIT = 2048 };
static _Alignas(64) unsigned char stack[STACK];
static ucontext_t here, there;
static struct sc_record record, before;
static uint8_t mirrors[64], proxy[16], other[12], request[52 + 4 + 60 + 4], ordinary[sizeof request], bulk[16], reply[24], sources[FILES];
static uint64_t files[FILES], count, waiting, waiting_offered, read_bytes[SC_PLACES], written_bytes[SC_PLACES];
static uint32_t read_over, written_over;
static volatile uint32_t answer;
enum { EXTENTS = 1024, EXTENT = 48, RANGES = 1024, BLOCK = 512 };
static uint8_t devices[16 * EXTENTS], body[4 + EXTENT * EXTENTS], commits[4 + 16 * RANGES];
static uint64_t offsets[EXTENTS], lengths[EXTENTS], storages[EXTENTS], place, at, left, device, offset, length, storage;
static uint32_t handles[EXTENTS], states[EXTENTS], kind, records, errors, status;
static struct sc_epochs epochs;

static uint32_t layoutreturn(const uint8_t *s, size_t len)
{
    return sc_record_layoutreturn(&record, 7, 1, s, len, reply, sizeof reply, read_bytes, SC_PLACES, written_bytes, SC_PLACES, &read_over, &written_over);
}

static void nothing(void) { answer = 0; }
static void fresh(void) { sc_record_fresh(&record); answer = 0; }
static void fresh_old(void) { sc_record_fresh_old(&record); answer = 0; }
static void enter(void) { answer = sc_record_register(&record, 5, mirrors, sizeof mirrors); }
static void open_file(void) { answer = sc_record_open(&record, 7, 9); }
static void close_file(void) { answer = sc_record_close(&record, 7, 9); }
static void forget(void) { answer = sc_record_forget(&record, 5); }
static void add_proxy(void) { answer = sc_record_add_proxy(&record, 13, proxy, sizeof proxy); }
static void add_mirror(void) { answer = sc_record_add_proxy(&record, 13, mirrors + 48, 16); }
static void remove_proxy(void) { answer = sc_record_remove_proxy(&record, 13); }
static void set_up(void) { answer = sc_record_set_up_stateid(&record, 7, 1, other, sizeof other); }
static void set_up_again(void) { answer = sc_record_set_up_stateid(&record, 10, 1, other, sizeof other); }
static void returns(void) { answer = layoutreturn(ordinary, sizeof ordinary); }
static void restart(void) { answer = sc_record_restart(&record); }
static void reclaim(void) { answer = sc_record_reclaim(&record, 7, 1); }
static void reports(void) { answer = layoutreturn(request, sizeof request); }
static void handed_on(void) { answer = layoutreturn(bulk, sizeof bulk); }
static void end_grace(void) { answer = sc_record_end_grace(&record); }
static void repaired(void) { answer = sc_record_repaired(&record, 10); }
static void resilver(void) { answer = sc_record_resilver(&record, files, FILES, sources, FILES, &count); }
static void offered(void) { answer = sc_record_offered(&record, files, FILES, sources, FILES, &count); }
static void resilver_by(void) { answer = sc_record_resilver_by(&record, files, FILES, sources, FILES, &count, SC_LOWEST); }
static void offered_by(void) { answer = sc_record_offered_by(&record, files, FILES, sources, FILES, &count, SC_LOWEST); }
static void counts(void) { sc_record_counts(&record, &waiting, &waiting_offered); answer = 0; }
static void resilver_by_none(void) { answer = sc_record_resilver_by(&record, files, FILES, sources, FILES, &count, 3); }

static void write_layout(void)
{
    answer = sc_layout_write(devices, sizeof devices, offsets, EXTENTS, lengths, EXTENTS, storages, EXTENTS, states, EXTENTS, body, sizeof body, &place);
}
static void check_layout(void) { answer = sc_layout_check(body, 4 + 44 * EXTENTS, &place); }
static void extent(void) { answer = sc_layout_extent(body, 4 + 44 * EXTENTS, EXTENTS, 7, &device, &offset, &length, &storage, &status); }
static void merge(void)
{
    answer = sc_layout_merge(devices, sizeof devices, offsets, EXTENTS, lengths, EXTENTS, storages, EXTENTS, states, EXTENTS, body, sizeof body, &place);
}
static void commit(void)
{
    answer = sc_layout_commit(commits, sizeof commits, BLOCK, devices, sizeof devices, offsets, EXTENTS, lengths, EXTENTS, storages, EXTENTS, states, EXTENTS,
                              body, sizeof body, &place);
}
static void write_rdma(void)
{
    answer = sc_rdma_layout_write(devices, sizeof devices, offsets, EXTENTS, handles, EXTENTS, lengths, EXTENTS, storages, EXTENTS, states, EXTENTS, body,
                                  sizeof body, &place);
}
static void check_rdma(void) { answer = sc_rdma_layout_check(body, sizeof body, &place); }
static void check_request(void) { answer = sc_layoutreturn_check(request, sizeof request, &kind, &at, &left); }
static void check_report(void) { answer = sc_report_check(request + 52, sizeof request - 52); }
static void next_error(void)
{
    at = 0;
    answer = sc_report_next(request + 52, sizeof request - 52, &at, &records, &errors, &device, &status);
}
static void next_statistic(void)
{
    at = 0;
    answer = sc_statistics_next(request + 52, sizeof request - 52, &at, &records, &device, &offset, &length);
}
static void write_reply(void) { answer = sc_layoutreturn_reply(reply, sizeof reply, 0); }
static void fresh_epochs(void) { sc_epochs_fresh(&epochs); answer = 0; }
static void join(void) { sc_epochs_fresh(&epochs); answer = sc_epochs_join(&epochs, 3); }
static void start(void) { sc_epochs_fresh(&epochs); sc_epochs_join(&epochs, 3); answer = sc_epochs_start(&epochs, 3); }

/* in the order of a history */
static const struct { const char *what; void (*call)(void); uint32_t answer; } calls[] = {
    {"register", enter, 0}, {"open", open_file, 0}, {"close", close_file, 0}, {"forget", forget, 0},
    {"add proxy", add_proxy, 0}, {"add proxy, a mirror", add_mirror, SC_INVAL}, {"remove proxy", remove_proxy, 0}, {"remove proxy, none", remove_proxy, SC_NOENT},
    {"stateid", set_up, 0}, {"stateid, in use", set_up_again, SC_INVAL}, {"LAYOUTRETURN, ordinary", returns, 0}, {"LAYOUTRETURN, older", returns, SC_OLD_STATEID},
    {"restart", restart, 0},
    {"reclaim", reclaim, 0}, {"LAYOUTRETURN", reports, 0}, {"LAYOUTRETURN, handed on", handed_on, SC_HANDED_ON},
    {"end of grace", end_grace, 0}, {"resilver list", resilver, 0}, {"offered for copying", offered, 0},
    {"resilver list, lowest", resilver_by, 0}, {"offered, lowest", offered_by, 0}, {"resilver, no direction", resilver_by_none, SC_INVAL},
    {"counts", counts, 0}, {"repaired", repaired, 0},
    {"fresh", fresh, 0}, {"fresh, old", fresh_old, 0},
    {"layout write", write_layout, 0}, {"layout check", check_layout, 0}, {"layout extent", extent, 0}, {"layout merge", merge, 0},
    {"layout commit", commit, 0},
    {"RDMA layout write", write_rdma, 0}, {"RDMA layout check", check_rdma, 0}, {"request check", check_request, 0},
    {"report check", check_report, 0}, {"report next", next_error, 1}, {"statistics next", next_statistic, 0}, {"reply", write_reply, 0},
    {"epochs fresh", fresh_epochs, 0}, {"epochs join", join, 0}, {"epochs start", start, 0},
};

static size_t painted(void (*call)(void), unsigned char paint)
{
    memset(stack, paint, STACK);
    getcontext(&there);
    there.uc_stack.ss_sp = stack;
    there.uc_stack.ss_size = STACK;
    there.uc_link = &here;
    makecontext(&there, call, 0);
    swapcontext(&here, &there);
    size_t i = 0;
    while (i < STACK && stack[i] == paint)
        i++;
    return STACK - i;
}

/* the deeper of two runs on the same record */
static size_t used(void (*call)(void))
{
    before = record;
    size_t first = painted(call, 0xa5);
    record = before;
    size_t second = painted(call, 0x5a);
    return first > second ? first : second;
}

static void put32(uint8_t *p, uint32_t x)
{
    for (int i = 0; i < 4; i++)
        p[i] = (uint8_t)(x >> (24 - 8 * i));
}

/* files 7, 10, 13 .. with four mirrors each, 7 with a proxy too; seven clients have opened 7, one of them 10; a request with an error of mirror 1, the
 * same with a stateid, and one for all files */
static void prepare(void)
{
    for (int i = 0; i < 4; i++)
        memset(mirrors + 16 * i, 0xaa + 0x11 * i, 16);
    memset(proxy, 0x99, sizeof proxy);
    sc_record_fresh(&record);
    for (uint64_t k = 0; k < 62; k++)
        sc_record_register(&record, 7 + 3 * k, mirrors, sizeof mirrors);
    sc_record_add_proxy(&record, 7, proxy, sizeof proxy);
    for (uint64_t c = 1; c < 8; c++)
        sc_record_open(&record, 7, c);
    sc_record_open(&record, 10, 1);
    put32(request + 4, 4);
    put32(request + 8, 2);
    put32(request + 12, 1);
    put32(request + 48, sizeof request - 52);
    put32(request + 52, 1);
    put32(request + 56 + 32, 1);
    memcpy(request + 56 + 36, mirrors + 16, 16);
    put32(request + 56 + 52, 5);
    memset(other, 0x55, sizeof other);
    memcpy(ordinary, request, sizeof ordinary);
    put32(ordinary + 32, 1);
    memcpy(ordinary + 36, other, sizeof other);
    memcpy(bulk, request, sizeof bulk);
    put32(bulk + 12, 2);
}

/* invalid extents of 4,096 bytes that touch, of one device, each as far in storage as in the file; and ranges over every other one of them, half by half */
static void prepare_extents(void)
{
    for (uint64_t i = 0; i < EXTENTS; i++) {
        offsets[i] = storages[i] = 4096 * i;
        lengths[i] = 4096;
        states[i] = 2;
    }
    put32(commits, RANGES);
    for (uint32_t k = 0; k < RANGES; k++) {
        put32(commits + 4 + 16 * k + 4, 4096 * (k / 2 * 2 + 1) + 2048 * (k % 2));
        put32(commits + 4 + 16 * k + 12, 2048);
    }
}

int main(void)
{
    int bad = 0;
    prepare();
    prepare_extents();
    size_t none = used(nothing);
    for (size_t k = 0; k < sizeof calls / sizeof calls[0]; k++) {
        size_t n = used(calls[k].call) - none;
        int otherwise = answer != calls[k].answer;
        printf("%-24s %6zu bytes of stack%s%s\n", calls[k].what, n, n > LIMIT ? ", more than the limit" : "", otherwise ? ", answered otherwise" : "");
        bad |= n > LIMIT || otherwise;
    }
    return bad;
}
