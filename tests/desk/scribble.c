/* scribble: stands between replay and the libraries (ld's --wrap) and, after the real call, breaks the one promise that the environment's
   SCRIBBLE names. guards.sh uses it to see that replay notices each. In this order: the choice; the record's calls; the wire check; the commit; epochs. */
#include "stellcircle.h"

#include <stdlib.h>
#include <string.h>

/* Whether this run is to break this promise. */
static int breaks(const char *promise)
{
    const char *chosen = getenv("SCRIBBLE");
    return chosen != NULL && strcmp(chosen, promise) == 0;
}

/* Changes the byte at p if the promise is the chosen one. */
static void scribble(const char *promise, const void *p)
{
    if (breaks(promise))
        *(uint8_t *)p ^= 0xff;
}

uint32_t __real_sc_record_register(struct sc_record *, uint64_t, const uint8_t *, size_t);
uint32_t __wrap_sc_record_register(struct sc_record *, uint64_t, const uint8_t *, size_t);
uint32_t __wrap_sc_record_register(struct sc_record *r, uint64_t file, const uint8_t *mirrors, size_t mirrors_len)
{
    uint32_t answer = __real_sc_record_register(r, file, mirrors, mirrors_len);
    scribble("mirrors", mirrors);
    scribble("mirrors-after", mirrors + mirrors_len);
    scribble("mirrors-before", mirrors - 1);
    scribble("record-after", r + 1);
    scribble("record-before", (uint8_t *)r - 1);
    return answer;
}

uint32_t __real_sc_record_add_proxy(struct sc_record *, uint64_t, const uint8_t *, size_t);
uint32_t __wrap_sc_record_add_proxy(struct sc_record *, uint64_t, const uint8_t *, size_t);
uint32_t __wrap_sc_record_add_proxy(struct sc_record *r, uint64_t file, const uint8_t *device, size_t device_len)
{
    uint32_t answer = __real_sc_record_add_proxy(r, file, device, device_len);
    if (device_len > 0)
        scribble("proxy", device);
    scribble("proxy-after", device + device_len);
    scribble("proxy-before", device - 1);
    scribble("proxy-record-after", r + 1);
    return answer;
}

uint32_t __real_sc_record_remove_proxy(struct sc_record *, uint64_t);
uint32_t __wrap_sc_record_remove_proxy(struct sc_record *, uint64_t);
uint32_t __wrap_sc_record_remove_proxy(struct sc_record *r, uint64_t file)
{
    uint32_t answer = __real_sc_record_remove_proxy(r, file);
    scribble("removed-record-after", r + 1);
    scribble("removed-record-before", (uint8_t *)r - 1);
    return answer;
}

uint32_t __real_sc_record_set_up_stateid(struct sc_record *, uint64_t, uint64_t, const uint8_t *, size_t);
uint32_t __wrap_sc_record_set_up_stateid(struct sc_record *, uint64_t, uint64_t, const uint8_t *, size_t);
uint32_t __wrap_sc_record_set_up_stateid(struct sc_record *r, uint64_t file, uint64_t client, const uint8_t *other, size_t other_len)
{
    uint32_t answer = __real_sc_record_set_up_stateid(r, file, client, other, other_len);
    if (other_len > 0)
        scribble("other", other);
    scribble("other-after", other + other_len);
    scribble("other-before", other - 1);
    scribble("stateid-record-after", r + 1);
    scribble("stateid-record-before", (uint8_t *)r - 1);
    return answer;
}

uint32_t __real_sc_record_layoutreturn(struct sc_record *, uint64_t, uint64_t, const uint8_t *, size_t, uint8_t *, size_t, uint64_t *, size_t,
                                       uint64_t *, size_t, uint32_t *, uint32_t *);
uint32_t __wrap_sc_record_layoutreturn(struct sc_record *, uint64_t, uint64_t, const uint8_t *, size_t, uint8_t *, size_t, uint64_t *, size_t,
                                       uint64_t *, size_t, uint32_t *, uint32_t *);
uint32_t __wrap_sc_record_layoutreturn(struct sc_record *r, uint64_t file, uint64_t client, const uint8_t *request, size_t request_len,
                                       uint8_t *reply, size_t reply_len, uint64_t *read, size_t read_len, uint64_t *written, size_t written_len,
                                       uint32_t *read_over, uint32_t *written_over)
{
    uint32_t answer = __real_sc_record_layoutreturn(r, file, client, request, request_len, reply, reply_len, read, read_len, written,
                                                    written_len, read_over, written_over);
    scribble("totals-after", read + read_len);
    scribble("totals-before", (uint8_t *)written - 1);
    scribble("totals-of-a-sixth", written + SC_PLACES);
    scribble("flags-after", read_over + 1);
    if (answer != 0)
        scribble("totals-of-a-refusal", written_over);
    scribble("request", request);
    scribble("request-after", request + request_len);
    scribble("reply-before", reply - 1);
    scribble("reply-after", reply + reply_len);
    if (answer == 0)
        scribble("reply-past-24", reply + 24);
    else if (answer == 28)
        scribble("reply-on-28", reply);
    else if (answer == SC_HANDED_ON)
        scribble("reply-on-handed-on", reply);
    else
        scribble("reply-past-4", reply + 4);
    return breaks("reply-of-no-room") && answer == 28 ? 10036 : answer;
}

uint32_t __real_sc_record_resilver_by(const struct sc_record *, uint64_t *, size_t, uint8_t *, size_t, uint64_t *, uint32_t);
uint32_t __wrap_sc_record_resilver_by(const struct sc_record *, uint64_t *, size_t, uint8_t *, size_t, uint64_t *, uint32_t);
uint32_t __wrap_sc_record_resilver_by(const struct sc_record *r, uint64_t *files, size_t files_len, uint8_t *sources, size_t sources_len,
                                      uint64_t *count, uint32_t direction)
{
    uint32_t answer = __real_sc_record_resilver_by(r, files, files_len, sources, sources_len, count, direction);
    scribble("listing-record", r);
    scribble("listing-count-after", count + 1);
    scribble("listing-files-after", files + files_len);
    scribble("listing-sources-after", sources + sources_len);
    if (answer == 0 && *count < files_len && *count < sources_len) {
        scribble("listing-files-past-count", files + *count);
        scribble("listing-sources-past-count", sources + *count);
    }
    if (answer == 28 && files_len > 0)
        scribble("listing-files-on-28", files);
    if (answer == 28 && sources_len > 0)
        scribble("listing-sources-on-28", sources);
    if (answer == 0 && breaks("listing-counts-too-many"))
        *count = files_len + 1;
    if (direction == SC_UNASKED)
        scribble("listing-unasked-record", r);
    if (direction == SC_UNASKED && answer == 0 && *count < sources_len)
        scribble("listing-unasked-sources-past-count", sources + *count);
    return answer;
}

void __real_sc_record_counts(const struct sc_record *, uint64_t *, uint64_t *);
void __wrap_sc_record_counts(const struct sc_record *, uint64_t *, uint64_t *);
void __wrap_sc_record_counts(const struct sc_record *r, uint64_t *waiting, uint64_t *offered)
{
    __real_sc_record_counts(r, waiting, offered);
    scribble("counts-record", r);
    scribble("counts-record-after", r + 1);
    scribble("counts-waiting-after", waiting + 1);
    scribble("counts-waiting-before", (uint8_t *)waiting - 1);
    scribble("counts-offered-after", offered + 1);
    scribble("counts-offered-before", (uint8_t *)offered - 1);
}

uint32_t __real_sc_layout_check(const uint8_t *, size_t, uint64_t *);
uint32_t __wrap_sc_layout_check(const uint8_t *, size_t, uint64_t *);
uint32_t __wrap_sc_layout_check(const uint8_t *body, size_t len, uint64_t *place)
{
    uint32_t answer = __real_sc_layout_check(body, len, place);
    scribble("body", body);
    scribble("body-after", body + len);
    scribble("place-after", place + 1);
    if (answer == 0 && breaks("body-count"))
        *place += 1;
    return answer;
}

uint32_t __real_sc_layout_commit(const uint8_t *, size_t, uint64_t, const uint8_t *, size_t, const uint64_t *, size_t, const uint64_t *, size_t,
                                 const uint64_t *, size_t, const uint32_t *, size_t, uint8_t *, size_t, uint64_t *);
uint32_t __wrap_sc_layout_commit(const uint8_t *, size_t, uint64_t, const uint8_t *, size_t, const uint64_t *, size_t, const uint64_t *, size_t,
                                 const uint64_t *, size_t, const uint32_t *, size_t, uint8_t *, size_t, uint64_t *);
uint32_t __wrap_sc_layout_commit(const uint8_t *commits, size_t commits_len, uint64_t block, const uint8_t *devices, size_t devices_len,
                                 const uint64_t *offsets, size_t offsets_len, const uint64_t *lengths, size_t lengths_len, const uint64_t *storages,
                                 size_t storages_len, const uint32_t *states, size_t states_len, uint8_t *out, size_t out_len, uint64_t *place)
{
    uint32_t answer = __real_sc_layout_commit(commits, commits_len, block, devices, devices_len, offsets, offsets_len, lengths, lengths_len, storages,
                                              storages_len, states, states_len, out, out_len, place);
    scribble("commits", commits);
    scribble("commits-after", commits + commits_len);
    scribble("commit-devices", devices);
    scribble("commit-offsets", offsets);
    scribble("commit-states-after", states + states_len);
    scribble("commit-place-after", place + 1);
    scribble("commit-body-after", out + out_len);
    if (answer == 0 && out_len > 4 + 44 * *place)
        scribble("commit-body-past-its-end", out + 4 + 44 * *place);
    if (answer != 0)
        scribble("commit-body-on-a-refusal", out);
    if (answer == 0 && breaks("commit-counts-too-many"))
        *place = 1024 * 1024;
    return answer;
}

uint32_t __real_sc_epochs_join(struct sc_epochs *, uint32_t);
uint32_t __wrap_sc_epochs_join(struct sc_epochs *, uint32_t);
uint32_t __wrap_sc_epochs_join(struct sc_epochs *e, uint32_t node)
{
    uint32_t answer = __real_sc_epochs_join(e, node);
    scribble("epochs-after", e + 1);
    scribble("epochs-before", (uint8_t *)e - 1);
    return answer;
}

uint32_t __real_sc_epochs_may_reclaim(const struct sc_epochs *, uint32_t);
uint32_t __wrap_sc_epochs_may_reclaim(const struct sc_epochs *, uint32_t);
uint32_t __wrap_sc_epochs_may_reclaim(const struct sc_epochs *e, uint32_t node)
{
    uint32_t answer = __real_sc_epochs_may_reclaim(e, node);
    scribble("may-epochs", e);
    return answer;
}
