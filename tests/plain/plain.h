/* The libraries' jobs in plain C, working in place: written from the rules alone (docs/RULES.md), beside tests/second, which is written for the eye.
 * Tests and the fuzzer compare the proved code with them, and the benchmark times it against them, so they are as quick as honest C is.
 * Each source is compiled with -DNAME=P, and each function's name begins with P; PLAIN(P) declares them. Arguments and answers are those of
 * the function of the same name in stellcircle.h. In this order: the types; the functions; names. */
#ifndef PLAIN_H
#define PLAIN_H

#include <stdbool.h>
#include <stddef.h>
#include <stdint.h>

/* A file's proxy has the place after those of its mirrors. */
enum { PLAIN_FILES = 64, PLAIN_MIRRORS = 4, PLAIN_PROXY = PLAIN_MIRRORS, PLAIN_PLACES = PLAIN_PROXY + 1, PLAIN_INTENTS = 8, PLAIN_NODES = 32 };

/* The directions that a source is looked for from. */
enum { PLAIN_LOWEST = 1, PLAIN_HIGHEST = 2 };

/* What a LAYOUTRETURN that is handed on is answered. */
#define PLAIN_HANDED_ON UINT32_MAX

/* A seqid of 0 is no stateid. */
struct plain_intent {
    uint64_t client;
    uint8_t other[12];
    uint32_t seqid;
    bool reclaimed;
};

/* The intents stand in the order in which they came; devices are by place, and blamed has a bit for each place. */
struct plain_file {
    uint64_t number;
    uint8_t devices[PLAIN_PLACES][16];
    struct plain_intent intents[PLAIN_INTENTS];
    uint8_t mirror_count, intent_count, blamed;
    bool marked, proxy;
};

/* The files stand by rising number; so many of them are marked, and so many of those have no intent. */
struct plain_record {
    struct plain_file files[PLAIN_FILES];
    size_t count;
    uint64_t waiting, offered;
    bool grace, old;
};

/* The sets of nodes are masks. */
struct plain_epochs {
    uint64_t current, recovery;
    uint32_t members, need, enforcing;
};

#define PLAIN(P) \
    uint32_t P##layout_check(const uint8_t *, size_t, uint64_t *); \
    uint32_t P##layout_extent(const uint8_t *, size_t, uint64_t, uint64_t, uint64_t *, uint64_t *, uint64_t *, uint64_t *, uint32_t *); \
    uint32_t P##layout_write(const uint8_t *, size_t, const uint64_t *, size_t, const uint64_t *, size_t, const uint64_t *, size_t, const uint32_t *, size_t, \
                             uint8_t *, size_t, uint64_t *); \
    uint32_t P##rdma_layout_check(const uint8_t *, size_t, uint64_t *); \
    uint32_t P##rdma_layout_extent(const uint8_t *, size_t, uint64_t, uint64_t, uint64_t *, uint64_t *, uint32_t *, uint64_t *, uint64_t *, uint32_t *); \
    uint32_t P##rdma_layout_write(const uint8_t *, size_t, const uint64_t *, size_t, const uint32_t *, size_t, const uint64_t *, size_t, const uint64_t *, \
                                  size_t, const uint32_t *, size_t, uint8_t *, size_t, uint64_t *); \
    uint32_t P##layout_merge(const uint8_t *, size_t, const uint64_t *, size_t, const uint64_t *, size_t, const uint64_t *, size_t, const uint32_t *, size_t, \
                             uint8_t *, size_t, uint64_t *); \
    uint32_t P##layout_commit(const uint8_t *, size_t, uint64_t, const uint8_t *, size_t, const uint64_t *, size_t, const uint64_t *, size_t, \
                              const uint64_t *, size_t, const uint32_t *, size_t, uint8_t *, size_t, uint64_t *); \
    uint32_t P##layoutreturn_check(const uint8_t *, size_t, uint32_t *, uint64_t *, uint64_t *); \
    uint32_t P##report_check(const uint8_t *, size_t); \
    uint32_t P##report_next(const uint8_t *, size_t, uint64_t *, uint32_t *, uint32_t *, uint64_t *, uint32_t *); \
    uint32_t P##statistics_next(const uint8_t *, size_t, uint64_t *, uint32_t *, uint64_t *, uint64_t *, uint64_t *); \
    uint32_t P##layoutreturn_reply(uint8_t *, size_t, uint32_t); \
    void P##record_fresh(struct plain_record *); \
    void P##record_fresh_old(struct plain_record *); \
    uint32_t P##record_register(struct plain_record *, uint64_t, const uint8_t *, size_t); \
    uint32_t P##record_open(struct plain_record *, uint64_t, uint64_t); \
    uint32_t P##record_reclaim(struct plain_record *, uint64_t, uint64_t); \
    uint32_t P##record_close(struct plain_record *, uint64_t, uint64_t); \
    uint32_t P##record_repaired(struct plain_record *, uint64_t); \
    uint32_t P##record_forget(struct plain_record *, uint64_t); \
    uint32_t P##record_add_proxy(struct plain_record *, uint64_t, const uint8_t *, size_t); \
    uint32_t P##record_remove_proxy(struct plain_record *, uint64_t); \
    uint32_t P##record_set_up_stateid(struct plain_record *, uint64_t, uint64_t, const uint8_t *, size_t); \
    uint32_t P##record_end_grace(struct plain_record *); \
    uint32_t P##record_restart(struct plain_record *); \
    uint32_t P##record_layoutreturn(struct plain_record *, uint64_t, uint64_t, const uint8_t *, size_t, uint8_t *, size_t, uint64_t *, size_t, uint64_t *, size_t, \
                                    uint32_t *, uint32_t *); \
    uint32_t P##record_resilver(const struct plain_record *, uint64_t *, size_t, uint8_t *, size_t, uint64_t *); \
    uint32_t P##record_offered(const struct plain_record *, uint64_t *, size_t, uint8_t *, size_t, uint64_t *); \
    uint32_t P##record_resilver_by(const struct plain_record *, uint64_t *, size_t, uint8_t *, size_t, uint64_t *, uint32_t); \
    uint32_t P##record_offered_by(const struct plain_record *, uint64_t *, size_t, uint8_t *, size_t, uint64_t *, uint32_t); \
    void P##record_counts(const struct plain_record *, uint64_t *, uint64_t *); \
    void P##epochs_fresh(struct plain_epochs *); \
    uint32_t P##epochs_join(struct plain_epochs *, uint32_t); \
    uint32_t P##epochs_leave(struct plain_epochs *, uint32_t); \
    uint32_t P##epochs_start(struct plain_epochs *, uint32_t); \
    uint32_t P##epochs_enforce(struct plain_epochs *, uint32_t); \
    uint32_t P##epochs_finish(struct plain_epochs *, uint32_t); \
    uint32_t P##epochs_stop_enforcing(struct plain_epochs *, uint32_t); \
    uint32_t P##epochs_may_reclaim(const struct plain_epochs *, uint32_t);

/* In the sources: FN(f) is the name of function f. */
#ifdef NAME
#define PLAIN_PASTE(P, N) P##N
#define PLAIN_NAME(P, N) PLAIN_PASTE(P, N)
#define PLAIN_OF(P) PLAIN(P)
#define FN(N) PLAIN_NAME(NAME, N)
PLAIN_OF(NAME)
#endif

#endif
