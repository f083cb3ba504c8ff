/* The calls on an epoch record: each version runs the same calls from the same records, and the records afterwards count among the answers. */
#include "bench.h"
#include "plain.h"
#include "stellcircle.h"

PLAIN(gcc_)
PLAIN(clang_)

enum { RECORDS = 64, CALLS = 4096, KINDS = 7 };
static struct plain_epochs begin[RECORDS];
static uint32_t kind[CALLS], node[CALLS], which[CALLS];
static uint64_t state = 88172645463325252u;

static uint64_t random64(void)
{
    state ^= state << 13;
    state ^= state >> 7;
    state ^= state << 17;
    return state;
}

/* Records that a history leads to: members, and some of them in a grace period; and calls of the kind that is asked for, or of all. */
static void prepare(void)
{
    for (int i = 0; i < RECORDS; i++) {
        uint32_t members = (uint32_t)random64(), need = i % 2 ? members & (uint32_t)random64() : 0;
        begin[i] = (struct plain_epochs){7, need ? 6 : 0, members, need, i % 4 ? members : need};
    }
    for (int i = 0; i < CALLS; i++) {
        kind[i] = bench_argument < KINDS ? (uint32_t)bench_argument : (uint32_t)(random64() % KINDS);
        node[i] = (uint32_t)(random64() % 33);
        which[i] = (uint32_t)(random64() % RECORDS);
    }
}

static void nothing(void) {}

#define VERSION(P, R, FORM) \
    static R P##records[RECORDS]; \
    static uint32_t P##may_reclaim(R *e, uint32_t n) { return P##epochs_may_reclaim(e, n); } \
    static uint32_t (*const P##calls[KINDS])(R *, uint32_t) = {P##epochs_join,   P##epochs_leave,          P##epochs_start, P##epochs_enforce, \
                                                               P##epochs_finish, P##epochs_stop_enforcing, P##may_reclaim}; \
    static void P##run(void) \
    { \
        for (int i = 0; i < CALLS; i++) \
            bench_sum[FORM] += P##calls[kind[i]](&P##records[which[i]], node[i]); \
    } \
    static void P##set_back(void) \
    { \
        for (int i = 0; i < RECORDS; i++) { \
            R *e = &P##records[i]; \
            bench_sum[FORM] = 31 * bench_sum[FORM] + e->current + 3 * e->recovery + 5 * (uint64_t)e->members + 7 * (uint64_t)e->need + 11 * (uint64_t)e->enforcing; \
            *e = (R){begin[i].current, begin[i].recovery, begin[i].members, begin[i].need, begin[i].enforcing}; \
        } \
    }
VERSION(sc_, struct sc_epochs, 0)
VERSION(gcc_, struct plain_epochs, 1)
VERSION(clang_, struct plain_epochs, 2)

static void set_back(int form)
{
    static void (*const versions[FORMS])(void) = BENCH_FORMS(set_back);
    versions[form]();
}

#define JOB(WHAT, LIMIT, KIND) {"epochs: " WHAT, CALLS, LIMIT, KIND, {prepare, nothing, nothing}, BENCH_FORMS(run)}
static const struct bench_job jobs[] = {
    JOB("join", 0, 0),   JOB("leave", 0, 1),          JOB("start", 0, 2),       JOB("enforce", 0, 3),
    JOB("finish", 0, 4), JOB("stop enforcing", 0, 5), JOB("may reclaim", 0, 6), JOB("a mix of all calls", 2, KINDS),
};

int main(int argc, char **argv)
{
    const struct bench b = {jobs, sizeof jobs / sizeof jobs[0], 400, NULL, set_back};
    return bench_main(&b, argc, argv);
}
