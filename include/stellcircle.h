/* stellcircle.h: the checked recovery core of a pNFS metadata server, for C and C++. Link with -lstellcircle.
 * In this order: the version; statuses; layout bodies; LAYOUTRETURN requests; the recovery record; the epochs of a cluster.
 *
 * Every function here is compiled from Rattle code that is proved to meet its contract. What a host has to keep to, since C checks none of it:
 *   - a pointer is good for its count of elements and is not NULL, also where the count is 0;
 *   - memory behind a pointer that is not const overlaps no other argument of the same call;
 *   - no other thread reads or writes that memory during the call;
 *   - buffers of bytes are good at any alignment, numbers and structs at that of their type.
 * No function keeps a pointer after it returns, allocates, locks or fails in any way but by its answer.
 * Stack: every call takes 2,048 bytes at most (tests/stack).
 *
 * Calls answer 0, or a refusal: the first that applies in the order given beside the call. A refused call changes nothing, unless it says so.
 */
#ifndef STELLCIRCLE_H
#define STELLCIRCLE_H

#include <stddef.h>
#include <stdint.h>

#ifdef __cplusplus
extern "C" {
#endif

#if defined(__cplusplus) || (defined(__STDC_VERSION__) && __STDC_VERSION__ >= 202311L)
#define SC_ASSERT static_assert
#else
#define SC_ASSERT _Static_assert
#endif

/* ---- the version ----
 *
 * The first number rises where a server has to be changed, the second where calls are added, the third where neither is.
 */
#define SC_VERSION_MAJOR 3
#define SC_VERSION_MINOR 0
#define SC_VERSION_PATCH 0

/* ---- statuses, by NFS's own names (RFC 8881, 15.1) ----
 *
 * What a call answers where it refuses; 0 is success. The refusals of layout bodies are rules of their own, from 1 to 9.
 */
#define SC_NOENT UINT32_C(2)                  /* the node is no member of the cluster, or the file has no proxy */
#define SC_EXIST UINT32_C(17)                 /* the file is registered or has a proxy, the intent has a stateid, or the node is a member, already */
#define SC_INVAL UINT32_C(22)                 /* a node above 31, a bad mirror list, proxy, stateid or commit list, no direction, or nothing to repair or to finish */
#define SC_NOSPC UINT32_C(28)                 /* no room: in a table, in a buffer that is lent, or for another epoch */
#define SC_STALE UINT32_C(70)                 /* no such file */
#define SC_DELAY UINT32_C(10008)              /* not yet: the file needs repair, or an intent is open */
#define SC_GRACE UINT32_C(10013)              /* a grace period is on */
#define SC_OLD_STATEID UINT32_C(10024)        /* a stateid whose seqid is older than the latest */
#define SC_BAD_STATEID UINT32_C(10025)        /* no intent to close or for a stateid, one not reclaimed, or a stateid that is not taken */
#define SC_NO_GRACE UINT32_C(10033)           /* no grace period is on */
#define SC_RECLAIM_BAD UINT32_C(10034)        /* the client has no intent on the file, or commits what it may not write */
#define SC_BADXDR UINT32_C(10036)             /* malformed bytes */
#define SC_BADIOMODE UINT32_C(10049)          /* an iomode outside 1 to 3 */
#define SC_UNKNOWN_LAYOUTTYPE UINT32_C(10062) /* a layout type that is not 4 */

/* ---- layout bodies of SCSI layouts (RFC 8154), sc_layout_*, and of RDMA layouts (draft-hellwig-nfsv4-rdma-layout), sc_rdma_layout_* ----
 *
 * A SCSI body is a 4-byte count n and n extents of 44 bytes: device id (16), file offset (8), length (8), storage offset (8), state (4), big-endian.
 * An RDMA body has extents of 48 bytes: after the file offset stands a handle (4), which is kept and not judged. Nothing in the bytes tells the kinds apart:
 * a body is read as the kind whose function is called, and the functions of the two kinds take different arguments wherever the handle is one.
 * States: 0 read-write, 1 read, 2 invalid, 3 none. A refusal is the number of the first rule that a body breaks:
 *   1  fewer than 4 bytes, or not 4 + 44n (RDMA: 4 + 48n)   5  an end above 2^64 - 1
 *   2  n above 1,024                                         6  out of order
 *   3  a state above 3                                       7  an overlap with an earlier extent
 *   4  length 0                                              8  (writing) the buffer is too short
 *                                                            9  (an extent by place) a place at or past n
 */

/* Checks a body. 0: accepted, and *place is n; else the refusal, and *place is the extent's place (0 for 1 and 2). */
uint32_t sc_layout_check(const uint8_t *body, size_t body_len, uint64_t *place);

/* The extent at place i of a body that sc_layout_check accepted with n extents, in constant time. 0: *device is where in the body the 16 bytes of the
 * device id begin, and the others are the extent's numbers. 9: i is at or past n, or past what the body has room for, and all five are 0. */
uint32_t sc_layout_extent(const uint8_t *body, size_t body_len, uint64_t n, uint64_t i, uint64_t *device, uint64_t *offset, uint64_t *length,
                          uint64_t *storage, uint32_t *state);

/* Writes a list of extents, lent as columns (16 bytes a device id; one number each otherwise), as a body at the start of out.
 * 0: written, and *place is how many extents; the first 4 + 44n bytes of out are the body, and the rest is as it was.
 * Else the refusal, and *place the extent's place (0 for 1, 2 and 8), and out is as it was. Columns that do not all hold the same whole
 * number of extents get 1 before all else; then 2 to 7, then 8. */
uint32_t sc_layout_write(const uint8_t *devices, size_t devices_len, const uint64_t *offsets, size_t offsets_len,
                         const uint64_t *lengths, size_t lengths_len, const uint64_t *storages, size_t storages_len,
                         const uint32_t *states, size_t states_len, uint8_t *out, size_t out_len, uint64_t *place);

/* The same for RDMA bodies, of 4 + 48n bytes: each with the handle, after the offset. */
uint32_t sc_rdma_layout_check(const uint8_t *body, size_t body_len, uint64_t *place);
uint32_t sc_rdma_layout_extent(const uint8_t *body, size_t body_len, uint64_t n, uint64_t i, uint64_t *device, uint64_t *offset, uint32_t *handle,
                               uint64_t *length, uint64_t *storage, uint32_t *state);
uint32_t sc_rdma_layout_write(const uint8_t *devices, size_t devices_len, const uint64_t *offsets, size_t offsets_len,
                              const uint32_t *handles, size_t handles_len, const uint64_t *lengths, size_t lengths_len,
                              const uint64_t *storages, size_t storages_len, const uint32_t *states, size_t states_len,
                              uint8_t *out, size_t out_len, uint64_t *place);

/* Merges a list of up to 4,096 extents, lent as columns like the writer's, and writes the result as a body at the start of out. Extents of the same
 * state and device are joined where one begins, in the file and in storage, just where the other ends, also where others stand between them in the
 * list; for holes (state 3) only the file counts, and every hole that is written has device and storage offset 0. Each byte of the file keeps its
 * state, device and storage byte, and no list of that meaning is shorter.
 * 0: written, and *place is how many extents are left; the first 4 + 44n bytes of out are the body, and the rest is as it was.
 * Else the refusal, and out is as it was: 1 for uneven columns, 2 above 4,096, then 3 to 7 with the extent's place in the list; 28 (NOSPC) if more
 * than 1,024 extents are left, then 8, all of 1, 2, 28 and 8 with *place 0. */
uint32_t sc_layout_merge(const uint8_t *devices, size_t devices_len, const uint64_t *offsets, size_t offsets_len,
                         const uint64_t *lengths, size_t lengths_len, const uint64_t *storages, size_t storages_len,
                         const uint32_t *states, size_t states_len, uint8_t *out, size_t out_len, uint64_t *place);

/* Commits what a client has written (LAYOUTCOMMIT), and writes the new list as a body at the start of out. `commits` is the commit list's bytes: a 4-byte
 * count n, at most 1,024, and n ranges of 16 bytes, file offset (8) and length (8), big-endian; `block` is the block size. The list is up to 1,024 extents,
 * lent as columns like the writer's. Each committed byte that was invalid is read-write at its own storage, and no read extent covers it any more; one that
 * was read-write stays so; every other byte keeps its state, device and storage byte. The new list comes out merged as by sc_layout_merge, so an
 * empty commit list merges.
 * 0: written, and *place is how many extents there are; the first 4 + 44n bytes of out are the body, and the rest is as it was.
 * Else the refusal, and out is as it was: 1 for uneven columns, 2 above 1,024, then 3 to 7 with the extent's place in the list; all others with *place 0:
 * 10036 (BADXDR): commits is not 4 + 16n bytes, or n is above 1,024; 22 (INVAL): the block size is 0, or a range has length 0, an end above 2^64 - 1, an
 * offset or a length that is no multiple of the block size, or begins before an earlier one ends; 10034 (RECLAIM_BAD): a committed byte is under neither
 * an invalid nor a read-write extent; 28 (NOSPC): the new list has more than 1,024 extents; last 8. */
uint32_t sc_layout_commit(const uint8_t *commits, size_t commits_len, uint64_t block, const uint8_t *devices, size_t devices_len,
                          const uint64_t *offsets, size_t offsets_len, const uint64_t *lengths, size_t lengths_len,
                          const uint64_t *storages, size_t storages_len, const uint32_t *states, size_t states_len,
                          uint8_t *out, size_t out_len, uint64_t *place);

/* ---- LAYOUTRETURN requests (RFC 8881) and their bodies, error and statistics records (RFC 8435) ----
 *
 * Pure checks: any bytes are good input. Every number that is lent is written on every call, unless said otherwise.
 */

/* What sc_layoutreturn_check says of a request, through `kind`; from 2 on, return type 1 by the kind of its stateid (RFC 8881, 8.2.3), of which the
 * first 4 bytes are the seqid and the last 12 `other`. */
#define SC_REQUEST_REFUSED 0   /* refused: reply with the number that was answered */
#define SC_REQUEST_HANDED_ON 1 /* return type 2 or 3: not for this library */
#define SC_REQUEST_ORDINARY 2  /* none of the following */
#define SC_REQUEST_ANONYMOUS 3 /* all sixteen bytes zero */
#define SC_REQUEST_BYPASS 4    /* all sixteen bytes ones: read bypass */
#define SC_REQUEST_CURRENT 5   /* seqid 1, and other all zeros: the current stateid */
#define SC_REQUEST_INVALID 6   /* other all zeros or all ones, with any other seqid */

/* Checks the arguments of a LAYOUTRETURN, from the reclaim flag to the end of the padded body (steps 1 to 3).
 * Answers 0, or why it is refused: 10036 (BADXDR), 10062 (UNKNOWN_LAYOUTTYPE), 10049 (BADIOMODE), the first that applies.
 * `kind` says what the request is. For kinds 2 to 6 the body is the `*len` bytes at request + *at; otherwise both are 0.
 */
uint32_t sc_layoutreturn_check(const uint8_t *request, size_t request_len, uint32_t *kind, uint64_t *at, uint64_t *len);

/* Checks a body (step 5): 0 if it is well formed, error records and statistics records alike, or 10036 (BADXDR). An address part or a file
 * handle of more than 128 bytes is malformed, and so are padding that is not zero, a boolean above 1 and spare bytes; nothing else in a record
 * is judged. Takes time by the body's length, whatever its counts say.
 */
uint32_t sc_report_check(const uint8_t *body, size_t body_len);

/* Walks the device errors of a body in their order. `at`, `records` and `devices` are the cursor: set all three to 0 before the first call
 * and hand them back unchanged. Answers 1 with a device error: `device` is where in the body the device's 16 bytes begin, `status`
 * is its status. After the last one it answers what sc_report_check answers (0 or 10036): the cursor then stays as it is, and the other two are 0.
 * The device errors of the error records that stand whole before the fault of a malformed body come before it: call sc_report_check first where
 * they must count all or not at all.
 *
 *     uint64_t at = 0, device;
 *     uint32_t records = 0, devices = 0, status, end;
 *     while ((end = sc_report_next(body, len, &at, &records, &devices, &device, &status)) == 1)
 *         blame(body + device, status);
 */
uint32_t sc_report_next(const uint8_t *body, size_t body_len, uint64_t *at, uint32_t *records, uint32_t *devices, uint64_t *device,
                        uint32_t *status);

/* Walks the statistics records of a body in their order. `at` and `left` are the cursor: set both to 0 before the first call and hand them back
 * unchanged. Answers 1 with a record: `device` is where in the body the device's 16 bytes begin, `read` and `written` are the record's own
 * counts of bytes. After the last one it answers what sc_report_check answers (0 or 10036): the cursor then stays as it is, and the other three
 * are 0. A body whose error records are malformed gets 10036 at once; records come before the fault of one whose statistics are.
 *
 *     uint64_t at = 0, device, read, written;
 *     uint32_t left = 0, end;
 *     while ((end = sc_statistics_next(body, len, &at, &left, &device, &read, &written)) == 1)
 *         count(body + device, read, written);
 */
uint32_t sc_statistics_next(const uint8_t *body, size_t body_len, uint64_t *at, uint32_t *left, uint64_t *device, uint64_t *read,
                            uint64_t *written);

/* Writes the reply of `status` at the start of the buffer, and answers `status`: 4 bytes, or for status 0 24 (the status, boolean 1, and a
 * stateid of sixteen zero bytes). Later bytes stay. A buffer under 24 bytes is left as it is, whatever the status, and 28 is answered.
 */
uint32_t sc_layoutreturn_reply(uint8_t *reply, size_t reply_len, uint32_t status);

/* ---- the recovery record ----
 *
 * At most 64 files, each with 1 to 4 mirror devices, at most one proxy, and at most 8 write intents, one a client, each with a layout stateid or without;
 * how many of them need repair and how many are offered for copying; and whether the server is in grace.
 * The places of a file are 0 to 3 for its mirrors, in the order in which they are registered, and 4 for its proxy, also where it has fewer than four mirrors.
 *
 * A record is plain memory that the server owns, sizeof(struct sc_record) bytes aligned as a uint64_t. Its words are for these calls alone: a
 * server copies or stores it as a whole, and reads nothing out of it. sc_record_fresh or sc_record_fresh_old sets it up; no other call may come
 * first. An image of a record that another version of this library wrote is not read.
 * A call changes the record where it lies, and leaves it as it was where it answers a refusal. Calls on two records may run at once.
 */
struct sc_record {
    uint64_t opaque[3137];
};

SC_ASSERT(sizeof(struct sc_record) == 25096, "struct sc_record is as the library has it");

#define SC_PLACES 5 /* the places of a file; a later version may have more */
#define SC_PROXY 4  /* the place of its proxy */

/* What sc_record_layoutreturn answers where a request is handed on: no status of NFS. */
#define SC_HANDED_ON UINT32_C(0xffffffff)

/* The record becomes empty and not in grace. What it held is not read. */
void sc_record_fresh(struct sc_record *r);

/* The same, set up as old, for sites whose clients are from before RFC 9737: a LAYOUTRETURN with the all-zero stateid gets 10025 in grace and out of
 * it, and no report marks, blames or counts bytes. A record keeps its edition, current or old, until it is set up again. */
void sc_record_fresh_old(struct sc_record *r);

/* Registers a file with its mirrors, 16 bytes a device id, in the order of their places. It has no proxy.
 * 10013: in grace; 22: no mirror, more than 4, one named twice, or no whole ids; 17: it is registered; 28: 64 files are. */
uint32_t sc_record_register(struct sc_record *r, uint64_t file, const uint8_t *mirrors, size_t mirrors_len);

/* The client opens the file for writing: it has an intent, without a stateid. 10013: in grace; 70: no such file; 0 without a change where it has one; 28: 8
 * are held. */
uint32_t sc_record_open(struct sc_record *r, uint64_t file, uint64_t client);

/* The client reclaims its intent. 10033: not in grace; 70: no such file; 10034: it has no intent; 0 without a change where it has reclaimed. */
uint32_t sc_record_reclaim(struct sc_record *r, uint64_t file, uint64_t client);

/* The client's intent goes, and its stateid with it. 70: no such file; 10025: it has no intent, or it is in grace and has not reclaimed. */
uint32_t sc_record_close(struct sc_record *r, uint64_t file, uint64_t client);

/* The file has been repaired: its mark and all blame go, and its proxy stays. 70: no such file; 22: it does not need repair; 10008: an intent is open. */
uint32_t sc_record_repaired(struct sc_record *r, uint64_t file);

/* The file goes, with its proxy if it has one, and its place is free. 10013: in grace; 70: no such file; 10008: it needs repair, or an intent is open. */
uint32_t sc_record_forget(struct sc_record *r, uint64_t file);

/* A proxy, of a device id of 16 bytes, sits in the file's layout from now on and receives the writes. Reports name it and blame it and it has totals like a
 * mirror, at place SC_PROXY, but it is never the source of a copy.
 * 10013: in grace; 70: no such file; 22: device_len is not 16, or the device is a mirror of the file or its proxy already; 17: the file has a proxy. */
uint32_t sc_record_add_proxy(struct sc_record *r, uint64_t file, const uint8_t *device, size_t device_len);

/* The proxy goes, and its blame with it. The file's mark and the blame of its mirrors stay. 10013: in grace; 70: no such file; 2: it has no proxy. */
uint32_t sc_record_remove_proxy(struct sc_record *r, uint64_t file);

/* The client's intent on the file gets a layout stateid: `other`, 12 bytes that the server chooses, and seqid 1. With it the client returns its layout out of
 * grace (sc_record_layoutreturn), and each accepted return raises the seqid by one; after 4294967295 comes 1. The stateid ends with the intent, and at a
 * restart; `other` may then be used again.
 * 10013: in grace; 70: no such file; 10025: the client has no intent on it; 17: the intent has a stateid; 22: other_len is not 12, or `other` is all zeros or
 * all ones, or is that of any intent of the record, on any file and of any client. */
uint32_t sc_record_set_up_stateid(struct sc_record *r, uint64_t file, uint64_t client, const uint8_t *other, size_t other_len);

/* Grace ends: each file that has any intent not reclaimed since the latest restart needs repair, and each such intent goes. An intent that
 * was reclaimed and then closed no longer counts. 10033: not in grace. */
uint32_t sc_record_end_grace(struct sc_record *r);

/* The server restarted: in grace, and nobody has reclaimed or has a stateid. Files, intents, marks and blame stay. No refusal. */
uint32_t sc_record_restart(struct sc_record *r);

/* A LAYOUTRETURN of the client on the file. `request` is its arguments, from the reclaim flag to the end of the padded body.
 * 28: reply_len is under 24. No reply is written, and nothing changes.
 * SC_HANDED_ON: return type 2 or 3, or not in grace with the current stateid (SC_REQUEST_CURRENT). No reply is written, and nothing changes.
 * Else the status, which is also the reply: its 4 bytes big-endian at the start of `reply`; for 0 then boolean 1 and a stateid of sixteen bytes, 24 in all:
 * zeros in grace; out of grace the client's own, with its seqid raised by this return. Later bytes of `reply` stay. The statuses besides 0, which change
 * nothing:
 * 10036: malformed; 10062: layout type not 4; 10049: iomode outside 1 to 3; 10025: stateid all zeros, and the record is set up as old; 10013: in grace,
 * stateid not all zeros; 10033: not in grace, all zeros; 10025: not in grace, read bypass or invalid; not in grace and ordinary (SC_REQUEST_ORDINARY), 70: no
 * such file, 10025: the client has no stateid with this `other` on it, or the seqid is newer than the latest, 10024: it is older; then 10036: the body
 * malformed; in grace 70: no such file, 10034: the client has no intent on it.
 * Seqid 0 means the latest. Behind the latest by 1 to 2^31 - 1, modulo 2^32, is older; any other that is not the latest is newer.
 * With 0 the file is marked and its devices blamed as the body says, in grace and out of it; in an old record the body of an ordinary return is read for its
 * form alone.
 *
 * The totals of this one request, from the byte counts of its statistics records, are written on EVERY call, whatever it answers: read[k] and
 * written[k] are those of the mirror or proxy at place k, for each of the read_len and written_len places that are lent; any other place gets 0.
 * A total that would pass 2^64 - 1 is 2^64 - 1, and then bit k of *read_over or *written_over is set; no other bit is. All are 0 unless
 * the answer is 0; they are 0 too where the report is ignored since an error record names a device that is neither a mirror nor the proxy, and in an old
 * record. A statistics record for such a device counts nowhere. Statistics change nothing in the record. */
uint32_t sc_record_layoutreturn(struct sc_record *r, uint64_t file, uint64_t client, const uint8_t *request, size_t request_len, uint8_t *reply,
                                size_t reply_len, uint64_t *read, size_t read_len, uint64_t *written, size_t written_len,
                                uint32_t *read_over, uint32_t *written_over);

/* The directions that the source of a copy is looked for from. */
#define SC_UNASKED UINT32_C(0) /* none is asked for: the highest */
#define SC_LOWEST UINT32_C(1)  /* from place 0 up */
#define SC_HIGHEST UINT32_C(2) /* from the last mirror down */

/* The files that need repair, by rising number: file k of the list at files[k], and at sources[k] the first mirror place by the direction that is not
 * blamed, or 255 where there is none, never the proxy's place. files_len and sources_len are the places that are lent.
 * 0: *count is the length of the list; later places stay as they were.
 * 22: the direction is none of these three; 28: a buffer is too short. *count is 0, and both buffers stay as they were. */
uint32_t sc_record_resilver_by(const struct sc_record *r, uint64_t *files, size_t files_len, uint8_t *sources, size_t sources_len, uint64_t *count,
                               uint32_t direction);

/* The same of those files that have no intent: they are offered for copying. */
uint32_t sc_record_offered_by(const struct sc_record *r, uint64_t *files, size_t files_len, uint8_t *sources, size_t sources_len, uint64_t *count,
                              uint32_t direction);

/* The same two for a host that asks for no direction: SC_UNASKED. Up to version 1 they gave the lowest; who relies on that asks for SC_LOWEST. */
static inline uint32_t sc_record_resilver(const struct sc_record *r, uint64_t *files, size_t files_len, uint8_t *sources, size_t sources_len,
                                          uint64_t *count)
{
    return sc_record_resilver_by(r, files, files_len, sources, sources_len, count, SC_UNASKED);
}

static inline uint32_t sc_record_offered(const struct sc_record *r, uint64_t *files, size_t files_len, uint8_t *sources, size_t sources_len,
                                         uint64_t *count)
{
    return sc_record_offered_by(r, files, files_len, sources, sources_len, count, SC_UNASKED);
}

/* How many files need repair, and how many of those are offered for copying: the lengths of the two lists. The record keeps both numbers, so that no file
 * is looked at, and a console may ask as often as it likes, in grace too. No refusal. The record is only read. */
void sc_record_counts(const struct sc_record *r, uint64_t *waiting, uint64_t *offered);

/* ---- the grace epochs of a cluster: the epoch record of a node, and the calls on it ----
 *
 * A record is plain memory that the server owns; each call changes it in place, or leaves it as it was where the answer is a refusal. Any values in
 * the record are taken; those that sc_epochs_fresh and these calls leave are sound: recovery is 0 or current - 1, recovery isn't 0 exactly when some
 * member has NEED, and flags are members' flags.
 *
 * Nodes are 0 to 31; every call answers 22 for a node above 31, before all else. A set of nodes is a mask: node n is in it where bit n is 1.
 */
struct sc_epochs {
    uint64_t current;   /* C, the current epoch */
    uint64_t recovery;  /* R, the epoch that clients recover from; 0: no grace period */
    uint32_t members;   /* the nodes of the cluster */
    uint32_t need;      /* NEED: members whose clients have to recover */
    uint32_t enforcing; /* ENFORCING: members that refuse ordinary requests */
};

SC_ASSERT(sizeof(struct sc_epochs) == 32, "struct sc_epochs is as the library has it");

/* The record becomes fresh: C = 1, R = 0, no members. What it held is not read. */
void sc_epochs_fresh(struct sc_epochs *e);

/* The node joins, with no flags. 17: it is a member. */
uint32_t sc_epochs_join(struct sc_epochs *e, uint32_t node);

/* The node leaves. 2: it is no member; 10013: it has NEED. */
uint32_t sc_epochs_leave(struct sc_epochs *e, uint32_t node);

/* The node restarted: it has NEED and ENFORCING. Where R is 0 this begins a grace period, R = C, and C rises by 1.
 * 2: it is no member; 28: R is 0 and C is 2^64 - 1. */
uint32_t sc_epochs_start(struct sc_epochs *e, uint32_t node);

/* The node enforces the grace period. 2: it is no member; 10033: R is 0. */
uint32_t sc_epochs_enforce(struct sc_epochs *e, uint32_t node);

/* The node has recovered: its NEED goes, and the last one ends the grace period, R = 0. 2: it is no member; 22: it has no NEED. */
uint32_t sc_epochs_finish(struct sc_epochs *e, uint32_t node);

/* The node enforces no more. 2: it is no member; 10013: R isn't 0. */
uint32_t sc_epochs_stop_enforcing(struct sc_epochs *e, uint32_t node);

/* Whether the node's clients may reclaim: 1 (yes) exactly when R isn't 0, the node has NEED, and every member enforces; otherwise 0 (no), also for a
 * node that is no member; 22 for a node above 31. The record is only read. */
uint32_t sc_epochs_may_reclaim(const struct sc_epochs *e, uint32_t node);

#undef SC_ASSERT

#ifdef __cplusplus
}
#endif

#endif
