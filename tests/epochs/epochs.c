/*
 * Runs the calls of the proved library on records in memory, and compares each answer and each field afterwards:
 * named cases, a capture of another implementation (the file named by the first argument), and a million random calls against tests/plain/epochs.c (seed: the second argument, or 1).
 * Prints one line, and ends with 1 where anything differs.
 */
#include "plain.h"
#include "stellcircle.h"
#include <inttypes.h>
#include <stdio.h>
#include <stdlib.h>
#include <string.h>

PLAIN(plain_)

enum { JOIN, LEAVE, START, ENFORCE, FINISH, STOP, MAY_RECLAIM, CALLS };

static const char *const names[CALLS] = {"join", "leave", "start", "enforce", "finish", "stop", "may reclaim"};

/* A record with guards on either side, which no call may touch. */
static struct {
    uint64_t before;
    struct sc_epochs e;
    uint64_t after;
} held;

static unsigned long differences;

static void differs(const char *where, unsigned long n, const char *what)
{
    if (differences++ < 10)
        fprintf(stderr, "%s, call %lu: %s differs\n", where, n, what);
}

static uint32_t call(int c, uint32_t node)
{
    switch (c) {
    case JOIN: return sc_epochs_join(&held.e, node);
    case LEAVE: return sc_epochs_leave(&held.e, node);
    case START: return sc_epochs_start(&held.e, node);
    case ENFORCE: return sc_epochs_enforce(&held.e, node);
    case FINISH: return sc_epochs_finish(&held.e, node);
    case STOP: return sc_epochs_stop_enforcing(&held.e, node);
    default: return sc_epochs_may_reclaim(&held.e, node);
    }
}

static uint32_t plain_call(struct plain_epochs *r, int c, uint32_t node)
{
    switch (c) {
    case JOIN: return plain_epochs_join(r, node);
    case LEAVE: return plain_epochs_leave(r, node);
    case START: return plain_epochs_start(r, node);
    case ENFORCE: return plain_epochs_enforce(r, node);
    case FINISH: return plain_epochs_finish(r, node);
    case STOP: return plain_epochs_stop_enforcing(r, node);
    default: return plain_epochs_may_reclaim(r, node);
    }
}

static void compare(const char *where, unsigned long n, uint64_t current, uint64_t recovery, uint32_t members, uint32_t need, uint32_t enforcing)
{
    if (held.e.current != current)
        differs(where, n, "C");
    if (held.e.recovery != recovery)
        differs(where, n, "R");
    if (held.e.members != members)
        differs(where, n, "members");
    if (held.e.need != need)
        differs(where, n, "NEED");
    if (held.e.enforcing != enforcing)
        differs(where, n, "ENFORCING");
    if (held.before != 0x5a5a5a5a5a5a5a5a || held.after != 0xa5a5a5a5a5a5a5a5)
        differs(where, n, "memory beside the record");
}

static void hold(void)
{
    memset(&held, 0xc3, sizeof held);
    held.before = 0x5a5a5a5a5a5a5a5a;
    held.after = 0xa5a5a5a5a5a5a5a5;
}

/* ---- named cases: a call, its answer, and the record afterwards */
struct expected {
    int call;
    uint32_t node, answer;
    uint64_t current, recovery;
    uint32_t members, need, enforcing;
};

/* K14 and K15; stop enforcing only after grace; C stays where a second node starts */
static const struct expected two_nodes[] = {
    {JOIN, 0, 0, 1, 0, 1, 0, 0},      {JOIN, 1, 0, 1, 0, 3, 0, 0},      {JOIN, 1, 17, 1, 0, 3, 0, 0},     {ENFORCE, 0, 10033, 1, 0, 3, 0, 0}, {START, 0, 0, 2, 1, 3, 1, 1},
    {MAY_RECLAIM, 0, 0, 2, 1, 3, 1, 1}, {START, 1, 0, 2, 1, 3, 3, 3},     {MAY_RECLAIM, 0, 1, 2, 1, 3, 3, 3}, {LEAVE, 0, 10013, 2, 1, 3, 3, 3}, {FINISH, 0, 0, 2, 1, 3, 2, 3},
    {MAY_RECLAIM, 0, 0, 2, 1, 3, 2, 3}, {STOP, 0, 10013, 2, 1, 3, 2, 3},  {FINISH, 0, 22, 2, 1, 3, 2, 3},   {FINISH, 1, 0, 2, 0, 3, 0, 3},    {STOP, 0, 0, 2, 0, 3, 0, 2},
};

/* a join in grace turns a yes to no; leaving without NEED keeps R while another has NEED; nodes above 31 */
static const struct expected join_in_grace[] = {
    {JOIN, 31, 0, 1, 0, 0x80000000, 0, 0},
    {START, 31, 0, 2, 1, 0x80000000, 0x80000000, 0x80000000},
    {MAY_RECLAIM, 31, 1, 2, 1, 0x80000000, 0x80000000, 0x80000000},
    {JOIN, 0, 0, 2, 1, 0x80000001, 0x80000000, 0x80000000},
    {MAY_RECLAIM, 31, 0, 2, 1, 0x80000001, 0x80000000, 0x80000000},
    {LEAVE, 0, 0, 2, 1, 0x80000000, 0x80000000, 0x80000000},
    {MAY_RECLAIM, 31, 1, 2, 1, 0x80000000, 0x80000000, 0x80000000},
    {MAY_RECLAIM, 32, 22, 2, 1, 0x80000000, 0x80000000, 0x80000000},
    {JOIN, 32, 22, 2, 1, 0x80000000, 0x80000000, 0x80000000},
    {FINISH, UINT32_MAX, 22, 2, 1, 0x80000000, 0x80000000, 0x80000000},
    {STOP, 0, 2, 2, 1, 0x80000000, 0x80000000, 0x80000000},
};

static void cases(const char *where, const struct expected *x, size_t n)
{
    hold();
    sc_epochs_fresh(&held.e);
    compare(where, 0, 1, 0, 0, 0, 0);
    for (size_t i = 0; i < n; i++) {
        if (call(x[i].call, x[i].node) != x[i].answer)
            differs(where, i + 1, names[x[i].call]);
        compare(where, i + 1, x[i].current, x[i].recovery, x[i].members, x[i].need, x[i].enforcing);
    }
}

/* the last epoch: 28 and no change at R = 0; accepted in grace */
static void last_epoch(void)
{
    hold();
    held.e = (struct sc_epochs){UINT64_MAX, 0, 3, 0, 2};
    if (call(START, 0) != 28)
        differs("last epoch", 1, "start");
    compare("last epoch", 1, UINT64_MAX, 0, 3, 0, 2);
    held.e = (struct sc_epochs){UINT64_MAX - 1, 0, 3, 0, 0};
    if (call(START, 0) != 0 || call(START, 1) != 0)
        differs("last epoch", 3, "start");
    compare("last epoch", 3, UINT64_MAX, UINT64_MAX - 1, 3, 3, 3);
}

/* ---- the capture: call node answer C R need enforcing members; a script begins fresh */
static unsigned long capture(const char *path)
{
    char line[200], name[20];
    unsigned long n = 0;
    FILE *f = fopen(path, "r");
    if (!f) {
        perror(path);
        exit(1);
    }
    while (fgets(line, sizeof line, f)) {
        uint32_t node, answer, need, enforcing, members;
        uint64_t current, recovery;
        int c = 0;
        if (line[0] == '#')
            continue;
        if (strncmp(line, "script ", 7) == 0) {
            hold();
            sc_epochs_fresh(&held.e);
            continue;
        }
        if (sscanf(line, "%19s %" SCNu32 " %" SCNu32 " %" SCNu64 " %" SCNu64 " %" SCNx32 " %" SCNx32 " %" SCNx32, name, &node, &answer, &current, &recovery, &need, &enforcing, &members) != 8) {
            fprintf(stderr, "%s: not a call: %s", path, line);
            exit(1);
        }
        while (c < MAY_RECLAIM && strcmp(name, names[c]) != 0)
            c++;
        if (c == MAY_RECLAIM) {
            fprintf(stderr, "%s: unknown call %s\n", path, name);
            exit(1);
        }
        n++;
        if (call(c, node) != answer)
            differs("capture", n, names[c]);
        compare("capture", n, current, recovery, members, need, enforcing);
    }
    fclose(f);
    return n;
}

/* ---- random calls */
static uint64_t state;

static uint64_t random64(void)
{
    state ^= state << 13;
    state ^= state >> 7;
    state ^= state << 17;
    return state;
}

static uint32_t random_node(unsigned few)
{
    static const uint32_t edges[] = {0, 31, 32, UINT32_MAX, 63, 64, 1u << 31};
    if (random64() % 16 == 0)
        return edges[random64() % (sizeof edges / sizeof *edges)];
    return random64() % few;
}

/* the record of both sides, any values: also such as no history leads to */
static void set(struct plain_epochs *r, uint64_t current, uint64_t recovery, uint32_t members, uint32_t need, uint32_t enforcing)
{
    held.e = (struct sc_epochs){current, recovery, members, need, enforcing};
    *r = (struct plain_epochs){current, recovery, members, need, enforcing};
}

/* what holds after any calls from a fresh record */
static void sound(unsigned long n)
{
    const struct sc_epochs *e = &held.e;
    if ((e->recovery != 0 && e->recovery != e->current - 1) || (e->recovery != 0) != (e->need != 0) || (e->need & ~e->members) || (e->enforcing & ~e->members))
        differs("random", n, "what holds after any calls");
}

static unsigned long random_calls(unsigned long calls)
{
    struct plain_epochs r;
    unsigned few = 4;
    bool from_fresh = false;
    hold();
    sc_epochs_fresh(&held.e);
    plain_epochs_fresh(&r);
    for (unsigned long n = 1; n <= calls; n++) {
        uint64_t pick = random64() % 1024;
        if (pick < 2) {
            hold();
            sc_epochs_fresh(&held.e);
            plain_epochs_fresh(&r);
            few = 1 + random64() % PLAIN_NODES;
            from_fresh = true;
        } else if (pick < 4) {
            set(&r, UINT64_MAX - random64() % 3, 0, random64(), 0, 0);
            from_fresh = false;
        } else if (pick < 6) {
            uint64_t c = random64() >> random64() % 64, recovery = random64() % 2 ? 0 : random64() >> random64() % 64;
            uint32_t members = random64(), enforcing = random64() % 2 ? random64() : random64() | members;
            set(&r, c, recovery, members, random64() & random64(), enforcing);
            from_fresh = false;
        }
        int c = random64() % CALLS;
        uint32_t node = random_node(few), want = plain_call(&r, c, node);
        if (call(c, node) != want)
            differs("random", n, names[c]);
        compare("random", n, r.current, r.recovery, r.members, r.need, r.enforcing);
        if (from_fresh)
            sound(n);
    }
    return calls;
}

int main(int argc, char **argv)
{
    if (argc < 2) {
        fprintf(stderr, "usage: %s CAPTURE [SEED]\n", argv[0]);
        return 1;
    }
    state = argc > 2 ? strtoull(argv[2], NULL, 10) * 2 + 1 : 3;
    for (int i = 0; i < 10; i++)
        random64();
    cases("two nodes", two_nodes, sizeof two_nodes / sizeof *two_nodes);
    cases("join in grace", join_in_grace, sizeof join_in_grace / sizeof *join_in_grace);
    last_epoch();
    unsigned long captured = capture(argv[1]), random = random_calls(1000000);
    printf("epochs: %lu captured calls, %lu random calls, %lu differences\n", captured, random, differences);
    return differences != 0 || captured == 0;
}
