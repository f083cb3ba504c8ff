/* The recovery record in plain C, working in place. First what the calls share, then the calls, LAYOUTRETURN, the two lists and the counts. */
#include "layoutreturn.h"
#include "plain.h"

static struct plain_file *find(struct plain_record *r, uint64_t number)
{
    for (size_t i = 0; i < r->count; i++)
        if (r->files[i].number == number)
            return &r->files[i];
    return NULL;
}

static struct plain_intent *intent(struct plain_file *f, uint64_t client)
{
    for (size_t i = 0; i < f->intent_count; i++)
        if (f->intents[i].client == client)
            return &f->intents[i];
    return NULL;
}

/* The place of a mirror or of the proxy; -1 for any other device. */
static int place(const struct plain_file *f, const uint8_t *device)
{
    for (int i = 0; i < f->mirror_count; i++)
        if (memcmp(f->devices[i], device, 16) == 0)
            return i;
    return f->proxy && memcmp(f->devices[PLAIN_PROXY], device, 16) == 0 ? PLAIN_PROXY : -1;
}

/* ---- the calls */
void FN(record_fresh)(struct plain_record *r)
{
    memset(r, 0, sizeof *r);
}

void FN(record_fresh_old)(struct plain_record *r)
{
    FN(record_fresh)(r);
    r->old = true;
}

uint32_t FN(record_register)(struct plain_record *r, uint64_t file, const uint8_t *mirrors, size_t len)
{
    if (r->grace)
        return 10013;
    if (len == 0 || len > 16 * PLAIN_MIRRORS || len % 16 != 0)
        return 22;
    struct plain_file f = {.number = file};
    for (size_t i = 0; i < len; i += 16) {
        if (place(&f, mirrors + i) >= 0)
            return 22;
        memcpy(f.devices[f.mirror_count++], mirrors + i, 16);
    }
    if (find(r, file) != NULL)
        return 17;
    if (r->count == PLAIN_FILES)
        return 28;
    size_t at = r->count;
    while (at > 0 && r->files[at - 1].number > file)
        at--;
    memmove(&r->files[at + 1], &r->files[at], (r->count - at) * sizeof f);
    r->files[at] = f;
    r->count++;
    return 0;
}

uint32_t FN(record_open)(struct plain_record *r, uint64_t file, uint64_t client)
{
    if (r->grace)
        return 10013;
    struct plain_file *f = find(r, file);
    if (f == NULL)
        return 70;
    if (intent(f, client) != NULL)
        return 0;
    if (f->intent_count == PLAIN_INTENTS)
        return 28;
    if (f->marked && f->intent_count == 0)
        r->offered--;
    f->intents[f->intent_count++] = (struct plain_intent){.client = client};
    return 0;
}

uint32_t FN(record_reclaim)(struct plain_record *r, uint64_t file, uint64_t client)
{
    if (!r->grace)
        return 10033;
    struct plain_file *f = find(r, file);
    if (f == NULL)
        return 70;
    struct plain_intent *i = intent(f, client);
    if (i == NULL)
        return 10034;
    i->reclaimed = true;
    return 0;
}

uint32_t FN(record_close)(struct plain_record *r, uint64_t file, uint64_t client)
{
    struct plain_file *f = find(r, file);
    if (f == NULL)
        return 70;
    struct plain_intent *i = intent(f, client);
    if (i == NULL || (r->grace && !i->reclaimed))
        return 10025;
    memmove(i, i + 1, (size_t)(f->intents + f->intent_count - (i + 1)) * sizeof *i);
    f->intent_count--;
    if (f->marked && f->intent_count == 0)
        r->offered++;
    return 0;
}

uint32_t FN(record_repaired)(struct plain_record *r, uint64_t file)
{
    struct plain_file *f = find(r, file);
    if (f == NULL)
        return 70;
    if (!f->marked)
        return 22;
    if (f->intent_count != 0)
        return 10008;
    f->marked = false;
    f->blamed = 0;
    r->waiting--;
    r->offered--;
    return 0;
}

uint32_t FN(record_forget)(struct plain_record *r, uint64_t file)
{
    if (r->grace)
        return 10013;
    struct plain_file *f = find(r, file);
    if (f == NULL)
        return 70;
    if (f->marked || f->intent_count != 0)
        return 10008;
    memmove(f, f + 1, (size_t)(r->files + r->count - (f + 1)) * sizeof *f);
    r->count--;
    return 0;
}

uint32_t FN(record_add_proxy)(struct plain_record *r, uint64_t file, const uint8_t *device, size_t len)
{
    if (r->grace)
        return 10013;
    struct plain_file *f = find(r, file);
    if (f == NULL)
        return 70;
    if (len != 16 || place(f, device) >= 0)
        return 22;
    if (f->proxy)
        return 17;
    memcpy(f->devices[PLAIN_PROXY], device, 16);
    f->proxy = true;
    return 0;
}

uint32_t FN(record_remove_proxy)(struct plain_record *r, uint64_t file)
{
    if (r->grace)
        return 10013;
    struct plain_file *f = find(r, file);
    if (f == NULL)
        return 70;
    if (!f->proxy)
        return 2;
    f->proxy = false;
    f->blamed &= (1 << PLAIN_PROXY) - 1;
    return 0;
}

/* Whether an intent of any file has this other. */
static bool in_use(const struct plain_record *r, const uint8_t *other)
{
    for (const struct plain_file *f = r->files; f < r->files + r->count; f++)
        for (size_t i = 0; i < f->intent_count; i++)
            if (memcmp(f->intents[i].other, other, OTHER_LEN) == 0 && f->intents[i].seqid != 0)
                return true;
    return false;
}

uint32_t FN(record_set_up_stateid)(struct plain_record *r, uint64_t file, uint64_t client, const uint8_t *other, size_t len)
{
    if (r->grace)
        return 10013;
    struct plain_file *f = find(r, file);
    if (f == NULL)
        return 70;
    struct plain_intent *i = intent(f, client);
    if (i == NULL)
        return 10025;
    if (i->seqid != 0)
        return 17;
    if (len != OTHER_LEN || is_zeros(other) || is_ones(other) || in_use(r, other))
        return 22;
    memcpy(i->other, other, OTHER_LEN);
    i->seqid = 1;
    return 0;
}

uint32_t FN(record_end_grace)(struct plain_record *r)
{
    if (!r->grace)
        return 10033;
    r->waiting = r->offered = 0;
    for (struct plain_file *f = r->files; f < r->files + r->count; f++) {
        uint8_t kept = 0;
        for (size_t i = 0; i < f->intent_count; i++)
            if (f->intents[i].reclaimed)
                f->intents[kept++] = f->intents[i];
        if (kept < f->intent_count)
            f->marked = true;
        f->intent_count = kept;
        r->waiting += f->marked;
        r->offered += f->marked && kept == 0;
    }
    r->grace = false;
    return 0;
}

uint32_t FN(record_restart)(struct plain_record *r)
{
    for (struct plain_file *f = r->files; f < r->files + r->count; f++) {
        for (size_t i = 0; i < f->intent_count; i++) {
            f->intents[i].reclaimed = false;
            f->intents[i].seqid = 0;
        }
    }
    r->grace = true;
    return 0;
}

/* ---- LAYOUTRETURN */
/* Bytes by place, and a bit for each place that had more than 2^64 - 1. */
struct sums {
    uint64_t bytes[PLAIN_PLACES];
    uint32_t over;
};

/* What a report says of a file, and whose stateid its return raised. */
struct heard {
    uint8_t blamed;
    bool unknown;
    struct sums read, written;
    const struct plain_intent *raised;
};

static void add(struct sums *s, int place, uint64_t n)
{
    if (__builtin_add_overflow(s->bytes[place], n, &s->bytes[place])) {
        s->bytes[place] = UINT64_MAX;
        s->over |= 1u << place;
    }
}

/* The place past the error records, and what they say; 0 where they are malformed. */
static size_t errors(const uint8_t *s, size_t n, const struct plain_file *f, struct heard *h)
{
    if (n < 4)
        return 0;
    size_t at = 4;
    for (uint32_t records = be32(s); records != 0; records--) {
        if (n - at < ERROR_RECORD)
            return 0;
        uint32_t devices = be32(s + at + 32);
        at += ERROR_RECORD;
        if ((n - at) / DEVICE_ERROR < devices)
            return 0;
        for (; devices != 0; devices--, at += DEVICE_ERROR) {
            int i = f == NULL ? -1 : place(f, s + at);
            if (i < 0)
                h->unknown = true;
            else if (be32(s + at + 16) != 0)
                h->blamed |= (uint8_t)(1 << i);
        }
    }
    return at;
}

/* Step 5, and what step 7 needs of it: BADXDR, or 0. Nothing is counted where a stranger is named. */
static uint32_t report(const uint8_t *s, size_t n, const struct plain_file *f, struct heard *h)
{
    size_t at = errors(s, n, f, h), end;
    if (at == 0 || n - at < 4)
        return BADXDR;
    uint32_t records = be32(s + at);
    for (at += 4; records != 0; records--, at = end) {
        if ((end = past_statistic(s, n, at)) == 0)
            return BADXDR;
        int i = f == NULL || h->unknown ? -1 : place(f, s + at + STATISTIC_DEVICE);
        if (i >= 0) {
            add(&h->read, i, be64(s + at + STATISTIC_READ));
            add(&h->written, i, be64(s + at + STATISTIC_WRITTEN));
        }
    }
    return at == n ? 0 : BADXDR;
}

/* A file that is reported on has an intent: it waits, and is not offered. */
static void mark(struct plain_record *r, struct plain_file *f)
{
    r->waiting += !f->marked;
    f->marked = true;
}

/* Step 4 of an ordinary return: the status, and the intent whose stateid it names. */
static uint32_t named(struct plain_file *f, uint64_t client, const uint8_t *stateid, struct plain_intent **holder)
{
    if (f == NULL)
        return 70;
    struct plain_intent *i = intent(f, client);
    if (i == NULL || i->seqid == 0 || memcmp(i->other, stateid + OTHER, OTHER_LEN) != 0)
        return 10025;
    uint32_t seqid = be32(stateid), behind = i->seqid - seqid;
    *holder = i;
    return seqid == 0 || behind == 0 ? 0 : behind < UINT32_C(1) << 31 ? 10024 : 10025;
}

/* Steps 1 to 7: the status, or PLAIN_HANDED_ON. What is heard counts where the status is 0. */
static uint32_t returned(struct plain_record *r, uint64_t file, uint64_t client, const uint8_t *s, size_t n, struct heard *h)
{
    uint32_t kind;
    uint64_t at, len;
    uint32_t status = request_check(s, n, &kind, &at, &len);
    if (status != 0)
        return status;
    if (kind == REQUEST_HANDED_ON)
        return PLAIN_HANDED_ON;
    if (kind == REQUEST_ANONYMOUS && r->old)
        return 10025;
    if (r->grace && kind != REQUEST_ANONYMOUS)
        return 10013;
    if (!r->grace && kind != REQUEST_ORDINARY)
        return kind == REQUEST_ANONYMOUS ? 10033 : kind == REQUEST_CURRENT ? PLAIN_HANDED_ON : 10025;
    struct plain_file *f = find(r, file);
    struct plain_intent *i = NULL;
    if (kind == REQUEST_ORDINARY && (status = named(f, client, s + STATEID, &i)) != 0)
        return status;
    status = report(s + at, len, r->old ? NULL : f, h);
    if (status != 0)
        return status;
    if (f == NULL)
        return 70;
    if (i == NULL && intent(f, client) == NULL)
        return 10034;
    if (!r->old && (h->unknown || h->blamed != 0)) {
        f->blamed |= h->unknown ? 0 : h->blamed;
        mark(r, f);
    }
    if (i != NULL) {
        i->seqid = i->seqid == UINT32_MAX ? 1 : i->seqid + 1;
        h->raised = i;
    }
    return 0;
}

/* Steps 1 to 7, after the reply's room. */
static uint32_t replied(struct plain_record *r, uint64_t file, uint64_t client, const uint8_t *request, size_t request_len, uint8_t *reply, size_t reply_len, struct heard *h)
{
    if (reply_len < 24)
        return 28;
    uint32_t status = returned(r, file, client, request, request_len, h);
    if (status != PLAIN_HANDED_ON)
        reply_write(reply, status);
    if (h->raised != NULL) {
        put32(reply + REPLY_STATEID, h->raised->seqid);
        memcpy(reply + REPLY_STATEID + OTHER, h->raised->other, OTHER_LEN);
    }
    return status;
}

/* Sums by place, or zeros, in what is lent. */
static void hand_out(const struct sums *s, bool counts, uint64_t *lent, size_t len, uint32_t *over)
{
    for (size_t i = 0; i < len; i++)
        lent[i] = counts && i < PLAIN_PLACES ? s->bytes[i] : 0;
    *over = counts ? s->over : 0;
}

uint32_t FN(record_layoutreturn)(struct plain_record *r, uint64_t file, uint64_t client, const uint8_t *request, size_t request_len, uint8_t *reply, size_t reply_len,
                                 uint64_t *read, size_t read_len, uint64_t *written, size_t written_len, uint32_t *read_over, uint32_t *written_over)
{
    struct heard h = {0};
    uint32_t status = replied(r, file, client, request, request_len, reply, reply_len, &h);
    hand_out(&h.read, status == 0, read, read_len, read_over);
    hand_out(&h.written, status == 0, written, written_len, written_over);
    return status;
}

/* ---- the lists */
/* The first mirror's place by the direction that is not blamed, or 255; where none is asked for (0), by the highest. */
static uint8_t source(const struct plain_file *f, uint32_t direction)
{
    unsigned left = ~(unsigned)f->blamed & ((1u << f->mirror_count) - 1);
    if (left == 0)
        return 255;
    return (uint8_t)(direction == PLAIN_LOWEST ? __builtin_ctz(left) : 31 - __builtin_clz(left));
}

static uint32_t list(const struct plain_record *r, bool idle, uint32_t direction, uint64_t *files, size_t files_len, uint8_t *sources, size_t sources_len, uint64_t *count)
{
    size_t n = 0;
    *count = 0;
    if (direction > PLAIN_HIGHEST)
        return 22;
    for (const struct plain_file *f = r->files; f < r->files + r->count; f++)
        n += f->marked && !(idle && f->intent_count != 0);
    if (files_len < n || sources_len < n)
        return 28;
    for (const struct plain_file *f = r->files; f < r->files + r->count; f++)
        if (f->marked && !(idle && f->intent_count != 0)) {
            files[*count] = f->number;
            sources[(*count)++] = source(f, direction);
        }
    return 0;
}

uint32_t FN(record_resilver_by)(const struct plain_record *r, uint64_t *files, size_t files_len, uint8_t *sources, size_t sources_len, uint64_t *count,
                                uint32_t direction)
{
    return list(r, false, direction, files, files_len, sources, sources_len, count);
}

uint32_t FN(record_offered_by)(const struct plain_record *r, uint64_t *files, size_t files_len, uint8_t *sources, size_t sources_len, uint64_t *count,
                               uint32_t direction)
{
    return list(r, true, direction, files, files_len, sources, sources_len, count);
}

/* Where nobody asks, the highest. */
uint32_t FN(record_resilver)(const struct plain_record *r, uint64_t *files, size_t files_len, uint8_t *sources, size_t sources_len, uint64_t *count)
{
    return list(r, false, PLAIN_HIGHEST, files, files_len, sources, sources_len, count);
}

uint32_t FN(record_offered)(const struct plain_record *r, uint64_t *files, size_t files_len, uint8_t *sources, size_t sources_len, uint64_t *count)
{
    return list(r, true, PLAIN_HIGHEST, files, files_len, sources, sources_len, count);
}

/* ---- the counts */
void FN(record_counts)(const struct plain_record *r, uint64_t *waiting, uint64_t *offered)
{
    *waiting = r->waiting;
    *offered = r->offered;
}
