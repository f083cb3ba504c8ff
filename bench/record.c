/* The calls on a full record (64 files, 8 intents each): first with files and clients in random order, which no branch predictor learns, then the calls
 * that have a limit with both in rising order, which it does. A call on one file may take 1.5 times gcc's time in either order, a LAYOUTRETURN with statistics
 * 1.2 times, register, forget, restart, the end of grace and the lists 2.0 times; a question for the counts, of a few nanoseconds, 1.5 times. A stateid is set up
 * in a record in which all other intents have one. */
#include "bench.h"
#include "bytes.h"
#include "plain.h"
#include "stellcircle.h"

PLAIN(gcc_)
PLAIN(clang_)

enum { FILES = 64, MANY = 1024 };
static uint8_t mirrors[64], proxy[16], one[52 + 4096], twenty[52 + 4096], live[52 + 4096], four[52 + 4096], eight[52 + 4096], bulk[16], current[60], reply[24], sources[FILES];
static size_t one_len, twenty_len, live_len, four_len, eight_len;
static uint64_t files[FILES], count, waiting, ready, bytes_read[SC_PLACES], bytes_written[SC_PLACES];
static uint32_t read_over, written_over;

/* the stateid of a file's client: its other is the two numbers, and in a request seqid 0 is the latest */
static uint8_t *other(uint8_t *s, uint64_t file, uint64_t client)
{
    put64(s, file);
    put32(s + 8, (uint32_t)client);
    return s;
}

static uint64_t number(int k) { return 1000003 * (uint64_t)(k + 1); }

/* files and clients, and each file once: the same for every version. In random order they are others in each round, so that no branch is learnt by
 * heart */
static uint64_t file[MANY], client[MANY], each[FILES], seed = 88172645463325252u;
static int rising;

static uint64_t random64(void)
{
    seed ^= seed << 13;
    seed ^= seed >> 7;
    seed ^= seed << 17;
    return seed;
}

static void shuffle(void)
{
    for (int k = 0; k < MANY; k++) {
        file[k] = number(rising ? k % FILES : (int)(random64() % FILES));
        client[k] = 1 + (rising ? (uint64_t)k : random64()) % 8;
    }
    for (int k = 0; k < FILES; k++) {
        int at = rising ? k : (int)(random64() % (uint64_t)(k + 1));
        each[k] = each[at];
        each[at] = number(k);
    }
}

#define R struct sc_record
#define P(N) sc_##N
#define FORM 0
#include "record_jobs.h"
#undef R
#undef P
#undef FORM
#define R struct plain_record
#define P(N) gcc_##N
#define FORM 1
#include "record_jobs.h"
#undef P
#undef FORM
#define P(N) clang_##N
#define FORM 2
#include "record_jobs.h"
#undef P
#undef FORM

#define BOTH(PREPARE, RUN) 0, BENCH_FORMS(PREPARE), BENCH_FORMS(RUN)
static const struct bench_job jobs[] = {
    {"open, held already", MANY, 1.5, BOTH(full, open_held)},
    {"open, 8 are held", MANY, 1.5, BOTH(full, open_ninth)},
    {"close, and open again", 2 * MANY, 1.5, BOTH(full, close_open)},
    {"reclaim", MANY, 1.5, BOTH(grace, reclaim)},
    {"repaired", FILES, 1.5, BOTH(lost, repaired)},
    {"add a proxy, and remove it", 2 * MANY, 1.5, BOTH(full_4, proxy)},
    {"LAYOUTRETURN, 1 error record", MANY, 1.5, BOTH(grace, report_1)},
    {"LAYOUTRETURN, 20 error records", MANY, 1.5, BOTH(grace, report_20)},
    {"LAYOUTRETURN, 1 statistics record", MANY, 1.2, BOTH(grace_4, statistics_1)},
    {"LAYOUTRETURN, 20 error records, 4 statistics", MANY, 1.2, BOTH(grace_4, statistics_4)},
    {"LAYOUTRETURN, 17 error records, 8 statistics", MANY, 1.2, BOTH(grace_4, statistics_8)},
    {"LAYOUTRETURN, handed on", MANY, 1.5, BOTH(grace, handed_on)},
    {"LAYOUTRETURN, handed on, the current stateid", MANY, 1.5, BOTH(full, handed_on_current)},
    {"set up a stateid", FILES, 1.5, BOTH(all_but_one, set_up)},
    {"LAYOUTRETURN, ordinary, 1 error record", MANY, 1.5, BOTH(all_stateids, ordinary_1)},
    {"LAYOUTRETURN, ordinary, 20 error records", MANY, 1.5, BOTH(all_stateids, ordinary_20)},
    {"LAYOUTRETURN, ordinary, of no stateid", MANY, 1.5, BOTH(full, ordinary_none)},
    {"register", FILES, 2.0, BOTH(empty, enter)},
    {"forget", FILES, 2.0, BOTH(idle, forget)},
    {"restart", FILES, 2.0, BOTH(half, restart)},
    {"end of grace", 1, 2.0, BOTH(half, end)},
    {"resilver list, 64 files", FILES, 2.0, BOTH(lost, resilver)},
    {"offered for copying, 64 files", FILES, 2.0, BOTH(lost, offered)},
    {"counts", MANY, 1.5, BOTH(lost, counts)},
    {"resilver list, 64 files, nobody asks", FILES, 2.0, BOTH(lost, resilver_highest)},
    {"offered for copying, 64 files, nobody asks", FILES, 2.0, BOTH(lost, offered_highest)},
};

/* an opaque field */
static uint8_t *opaque(uint8_t *s, uint32_t len)
{
    put32(s, len);
    memset(s + 4, 'x', len);
    return s + 4 + (len + 3) / 4 * 4;
}

/* a statistics record of a mirror, of 380 bytes, as a Linux client fills it for a handle of 128 bytes */
static uint8_t *statistic(uint8_t *s, int mirror, uint32_t read)
{
    put32(s + 44, read);
    put32(s + 60, 2 * read);
    memcpy(s + 64, mirrors + 16 * mirror, 16);
    s = opaque(s + 80, 3);
    s = opaque(s, 12);
    s = opaque(s, 128);
    memset(s, 0x33, 140);
    return s + 144;
}

/* a request with the all-zero stateid and so many error records, each of one device error of one of the mirrors from `first` to `last`, and so many statistics records
 * of those mirrors */
static size_t request(uint8_t *s, int records, int statistics, int first, int last)
{
    uint8_t *at = s + 56;
    put32(s + 4, 4);
    put32(s + 8, 2);
    put32(s + 12, 1);
    put32(s + 52, (uint32_t)records);
    for (int i = 0; i < records; i++, at += 60) {
        put32(at + 32, 1);
        memcpy(at + 36, mirrors + 16 * (first + i % (last - first + 1)), 16);
        put32(at + 52, 5);
    }
    put32(at, (uint32_t)statistics);
    at += 4;
    for (int i = 0; i < statistics; i++)
        at = statistic(at, first + i % (last - first + 1), 4096u * (uint32_t)(i + 1));
    put32(s + 48, (uint32_t)(at - s - 52));
    return (size_t)(at - s);
}

static void set_back(int form)
{
    if (form == 0)
        memcpy(&sc_held, &sc_state, sizeof sc_held);
    else if (form == 1)
        memcpy(&gcc_held, &gcc_state, sizeof gcc_held);
    else
        memcpy(&clang_held, &clang_state, sizeof clang_held);
}

int main(int argc, char **argv)
{
    const struct bench b = {jobs, sizeof jobs / sizeof jobs[0], 500, shuffle, set_back};
    for (int i = 0; i < 4; i++)
        memset(mirrors + 16 * i, 0xaa + 0x11 * i, 16);
    memset(proxy, 0x99, sizeof proxy);
    one_len = request(one, 1, 0, 1, 1);
    twenty_len = request(twenty, 20, 0, 1, 1);
    live_len = request(live, 0, 1, 0, 3);
    four_len = request(four, 20, 4, 0, 3);
    eight_len = request(eight, 17, 8, 0, 3);
    put32(bulk + 4, 4);
    put32(bulk + 8, 2);
    put32(bulk + 12, 2);
    request(current, 0, 0, 0, 0);
    put32(current + 32, 1);
    if (four_len != 52 + 2728 || eight_len > 52 + 4096)
        return 1;
    int bad = bench_main(&b, argc, argv);
    rising = 1;
    for (int k = 0; argc == 1 && k < b.count; k++)
        if (jobs[k].limit != 0)
            bad |= bench_time(&b, &jobs[k], "; rising order");
    return bad;
}
