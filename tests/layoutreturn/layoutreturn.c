/*
 * LAYOUTRETURN through the library's C functions: captured requests, damaged ones, and made-up ones beside plain C.
 * layoutreturn DAMAGED LINUX: the two capture files. Prints one line with counts; exits 1 on any difference, and where a file has no cases.
 */
#include "bytes.h"
#include "plain.h"
#include "stellcircle.h"
#include <stdio.h>
#include <stdlib.h>

PLAIN(plain_)

enum { MOST_BYTES = 16384, MOST_ERRORS = 1024, MOST_STATISTICS = 64 };

static unsigned long differences, errors_compared, statistics_compared;

static void differs(const char *where, unsigned long line, const char *what)
{
    differences++;
    if (differences <= 20)
        fprintf(stderr, "%s:%lu: %s\n", where, line, what);
}

static int digit(char c)
{
    return c >= '0' && c <= '9' ? c - '0' : c >= 'a' && c <= 'f' ? c - 'a' + 10 : -1;
}

/* The bytes of a run of hex digits; "-" is none. Answers their count. */
static size_t bytes_of(const char *hex, uint8_t *out)
{
    size_t n = 0;
    for (; digit(hex[0]) >= 0 && digit(hex[1]) >= 0 && n < MOST_BYTES; hex += 2)
        out[n++] = (uint8_t)(digit(hex[0]) * 16 + digit(hex[1]));
    return n;
}

/* A device error: where its device begins, its status. */
struct error {
    size_t device;
    uint32_t status;
};

/* A statistics record: where its device begins, and its counts of bytes. */
struct statistic {
    size_t device;
    uint64_t read, written;
};

typedef uint32_t next(const uint8_t *, size_t, uint64_t *, uint32_t *, uint32_t *, uint64_t *, uint32_t *);
typedef uint32_t statistics_next(const uint8_t *, size_t, uint64_t *, uint32_t *, uint64_t *, uint64_t *, uint64_t *);

/* The device errors of a body as the library or plain C walks them. Answers their count, and the answer at which the walk ends through `end`. */
static size_t walk(next *f, const uint8_t *body, size_t len, struct error *e, uint32_t *end)
{
    uint64_t at = 0, device;
    uint32_t records = 0, devices = 0, status;
    size_t n = 0;
    while ((*end = f(body, len, &at, &records, &devices, &device, &status)) == 1) {
        if (n < MOST_ERRORS)
            e[n] = (struct error){device, status};
        n++;
    }
    uint64_t at2 = at;
    uint32_t records2 = records, devices2 = devices;
    if (f(body, len, &at2, &records2, &devices2, &device, &status) != *end || at2 != at || records2 != records || devices2 != devices ||
        device != 0 || status != 0)
        differs("walk", n, "the end of a walk does not stay");
    return n;
}

/* The statistics records of a body, in the same way. */
static size_t walk_statistics(statistics_next *f, const uint8_t *body, size_t len, struct statistic *y, uint32_t *end)
{
    uint64_t at = 0, device, read, written, before = 0;
    uint32_t left = 0, left_before = 0;
    size_t n = 0;
    while ((*end = f(body, len, &at, &left, &device, &read, &written)) == 1) {
        if (n < MOST_STATISTICS)
            y[n] = (struct statistic){device, read, written};
        n++;
        before = at;
        left_before = left;
    }
    if (at != before || left != left_before || device != 0 || read != 0 || written != 0)
        differs("walk of statistics", n, "the end changes the cursor, or gives a record");
    if (f(body, len, &at, &left, &device, &read, &written) != *end || at != before || left != left_before || device != 0 || read != 0 || written != 0)
        differs("walk of statistics", n, "the end of a walk does not stay");
    return n;
}

/* Whether the device errors are those of a list `device:status[:operation],..` or "-". */
static int same_errors(const uint8_t *body, const struct error *e, size_t n, const char *list)
{
    size_t i = 0;
    uint8_t id[MOST_BYTES];
    if (list[0] == '-')
        return n == 0;
    for (;; i++, list++) {
        char *rest;
        if (i == n || bytes_of(list, id) != 16 || memcmp(id, body + e[i].device, 16) != 0 || list[32] != ':')
            return 0;
        if (strtoul(list + 33, &rest, 10) != e[i].status)
            return 0;
        if (*rest == ':' && strtoul(rest + 1, &rest, 10) != be32(body + e[i].device + 20))
            return 0;
        errors_compared++;
        list = rest;
        if (*list != ',')
            return i + 1 == n;
    }
}

/* Whether the statistics records are those of a list `device:read:written,..` or "-". */
static int same_statistics(const uint8_t *body, const struct statistic *y, size_t n, const char *list)
{
    size_t i = 0;
    uint8_t id[MOST_BYTES];
    if (list[0] == '-')
        return n == 0;
    for (;; i++, list++) {
        char *rest;
        if (i == n || bytes_of(list, id) != 16 || memcmp(id, body + y[i].device, 16) != 0 || list[32] != ':')
            return 0;
        if (strtoull(list + 33, &rest, 10) != y[i].read || *rest != ':' || strtoull(rest + 1, &rest, 10) != y[i].written)
            return 0;
        statistics_compared++;
        list = rest;
        if (*list != ',')
            return i + 1 == n;
    }
}

/* A well-formed body of a captured request: its device errors and its statistics records are those of the file. */
static void captured(const char *path, unsigned long line, const uint8_t *body, size_t len, const char *errors, const char *statistics)
{
    static struct error e[MOST_ERRORS];
    static struct statistic y[MOST_STATISTICS];
    uint32_t end;
    size_t count = walk(sc_report_next, body, len, e, &end);
    if (end != 0 || !same_errors(body, e, count, errors))
        differs(path, line, "other device errors");
    count = walk_statistics(sc_statistics_next, body, len, y, &end);
    if (end != 0 || !same_statistics(body, y, count, statistics))
        differs(path, line, "other statistics");
}

/* The answer of steps 1 to 5 as the captures write it: a number, "on" for handed on, "ok" where step 6 is reached. */
static void answer_of(const uint8_t *request, size_t n, int grace, char *out, size_t size)
{
    uint32_t kind, number;
    uint64_t at, len;
    number = sc_layoutreturn_check(request, n, &kind, &at, &len);
    if (kind == SC_REQUEST_ANONYMOUS)
        number = grace ? sc_report_check(request + at, len) : 10033;
    else if (kind >= SC_REQUEST_ORDINARY && grace)
        number = 10013;
    else if (kind == SC_REQUEST_BYPASS || kind == SC_REQUEST_INVALID)
        number = 10025;
    if (number != 0)
        snprintf(out, size, "%u", (unsigned)number);
    else
        snprintf(out, size, "%s", kind == SC_REQUEST_ANONYMOUS ? "ok" : "on");
}

/* The statistics records of a body beside plain C. */
static void statistics_beside_plain(const char *where, unsigned long line, const uint8_t *body, size_t len, uint32_t check)
{
    static struct statistic y[MOST_STATISTICS], z[MOST_STATISTICS];
    uint32_t end, end2;
    size_t count = walk_statistics(sc_statistics_next, body, len, y, &end), count2 = walk_statistics(plain_statistics_next, body, len, z, &end2);
    if (end != check || end2 != check)
        differs(where, line, "the walk of statistics ends otherwise than the check");
    if (count != count2)
        differs(where, line, "the walk of statistics has another count than plain C");
    for (size_t i = 0; i < count && i < count2 && i < MOST_STATISTICS; i++, statistics_compared++)
        if (y[i].device != z[i].device || y[i].read != z[i].read || y[i].written != z[i].written)
            differs(where, line, "a statistics record differs from plain C");
}

/* A request beside plain C: steps 1 to 3, step 5 on its body, every device error and every statistics record. */
static void beside_plain(const char *where, unsigned long line, const uint8_t *request, size_t n)
{
    static struct error e[MOST_ERRORS], f[MOST_ERRORS];
    uint32_t kind = 9, kind2, end, end2;
    uint64_t at = 9, len = 9, at2, len2;
    if (sc_layoutreturn_check(request, n, &kind, &at, &len) != plain_layoutreturn_check(request, n, &kind2, &at2, &len2) || kind != kind2 ||
        at != at2 || len != len2) {
        differs(where, line, "steps 1 to 3 differ from plain C");
        return;
    }
    if (at + len > n || len > 4096 || (kind < 2 && (at != 0 || len != 0)))
        differs(where, line, "the body is not a part of the request");
    const uint8_t *body = request + at;
    uint32_t check = sc_report_check(body, len);
    if (check != plain_report_check(body, len))
        differs(where, line, "step 5 differs from plain C");
    size_t count = walk(sc_report_next, body, len, e, &end), count2 = walk(plain_report_next, body, len, f, &end2);
    if (end != check || end2 != check)
        differs(where, line, "the walk ends otherwise than the check");
    if (count != count2)
        differs(where, line, "the walk has another count than plain C");
    for (size_t i = 0; i < count && i < count2 && i < MOST_ERRORS; i++)
        if (e[i].device != f[i].device || e[i].status != f[i].status)
            differs(where, line, "a device error differs from plain C");
    statistics_beside_plain(where, line, body, len, check);
}

/* The answer out of grace since Ticket 6, from the one before: of what was handed on, a file's return with the bypass or an invalid stateid is refused. */
static const char *since_kinds(const uint8_t *request, size_t n, const char *before)
{
    if (strcmp(before, "on") != 0 || n < 48 || be32(request + 12) != 1)
        return before;
    size_t zeros = 0, ones = 0;
    for (size_t i = 36; i < 48; i++) {
        zeros += request[i] == 0;
        ones += request[i] == 255;
    }
    uint32_t seqid = be32(request + 32);
    return ones == 12 || (zeros == 12 && seqid > 1) ? "10025" : before;
}

/* Requests with the answers of steps 1 to 5: hex, in grace before statistics were read, out of grace before Ticket 6, in grace now, errors, statistics. */
static unsigned long damaged(const char *path)
{
    static char line[4 * MOST_BYTES], hex[2 * MOST_BYTES], list[2 * MOST_BYTES], stats[2 * MOST_BYTES];
    static uint8_t request[MOST_BYTES];
    char before[16], after[16], grace[16], told[16];
    unsigned long cases = 0, at_line = 0;
    FILE *f = fopen(path, "r");
    while (f && fgets(line, sizeof line, f)) {
        at_line++;
        if (line[0] == '#')
            continue;
        if (sscanf(line, "%32767s %15s %15s %15s %32767s %32767s", hex, before, after, grace, list, stats) != 6) {
            differs(path, at_line, "not a case");
            continue;
        }
        cases++;
        size_t n = bytes_of(hex, request);
        answer_of(request, n, 1, told, sizeof told);
        if (strcmp(told, grace) != 0)
            differs(path, at_line, "another answer in grace");
        answer_of(request, n, 0, told, sizeof told);
        if (strcmp(told, since_kinds(request, n, after)) != 0)
            differs(path, at_line, "another answer out of grace");
        if (strcmp(grace, "ok") == 0) {
            uint32_t kind;
            uint64_t at, len;
            sc_layoutreturn_check(request, n, &kind, &at, &len);
            captured(path, at_line, request + at, len, list, stats);
        }
        beside_plain(path, at_line, request, n);
    }
    if (f)
        fclose(f);
    return cases;
}

/* Requests with their fields: reclaim type iomode returntype | seqid:other | body length | body ok | errors .. | stats .. */
static unsigned long linux_client(const char *path)
{
    static char line[4 * MOST_BYTES], list[2 * MOST_BYTES], stats[2 * MOST_BYTES];
    static uint8_t request[MOST_BYTES];
    unsigned long cases = 0, at_line = 0;
    unsigned reclaim = 0, type = 0, iomode = 0, ways = 0, size = 0;
    char seqid[16], other[32], form[16];
    int fields = 0;
    FILE *f = fopen(path, "r");
    while (f && fgets(line, sizeof line, f)) {
        at_line++;
        if (line[0] == '#')
            continue;
        if (line[0] == '=') {
            fields = sscanf(line, "= %u %u %u %u | %8[0-9a-f]:%24[0-9a-f] | %u | body %15s | errors %32767s | stats %32767s", &reclaim, &type,
                            &iomode, &ways, seqid, other, &size, form, list, stats) == 10;
            if (!fields)
                differs(path, at_line, "not the fields of a case");
            continue;
        }
        size_t n = bytes_of(line, request);
        if (!fields || n < 52) {
            differs(path, at_line, "a request without its fields");
            continue;
        }
        fields = 0;
        cases++;
        uint8_t stateid[MOST_BYTES];
        char told[64];
        snprintf(told, sizeof told, "%s%s", seqid, other);
        if (bytes_of(told, stateid) != 16 || memcmp(stateid, request + 32, 16) != 0)
            differs(path, at_line, "another stateid");
        if (be32(request) != reclaim || be32(request + 4) != type || be32(request + 8) != iomode ||
            be32(request + 12) != ways)
            differs(path, at_line, "another reclaim flag, layout type, iomode or return type");
        uint32_t kind, number;
        uint64_t at, len;
        number = sc_layoutreturn_check(request, n, &kind, &at, &len);
        static const uint8_t zeros[16];
        uint32_t refusal = type != 4 ? 10062 : iomode < 1 || iomode > 3 ? 10049 : 0;
        /* the client sends no stateid of another kind */
        uint32_t sent = memcmp(stateid, zeros, 16) == 0 ? SC_REQUEST_ANONYMOUS : SC_REQUEST_ORDINARY;
        uint32_t expected = refusal != 0 ? SC_REQUEST_REFUSED : ways != 1 ? SC_REQUEST_HANDED_ON : sent;
        if (number != refusal || kind != expected)
            differs(path, at_line, "another answer or kind");
        if (kind >= 2 && (at != 52 || len != size))
            differs(path, at_line, "another body");
        if (kind >= 2) {
            int well_formed = strcmp(form, "ok") == 0;
            if (sc_report_check(request + at, len) != (well_formed ? 0 : 10036))
                differs(path, at_line, "another answer of step 5");
            if (well_formed)
                captured(path, at_line, request + at, len, list, stats);
        }
        beside_plain(path, at_line, request, n);
    }
    if (f)
        fclose(f);
    return cases;
}

/* ---- made-up requests */
static uint64_t seed = 0x9737;

static uint32_t chance(uint32_t n)
{
    seed = seed * 6364136223846793005u + 1442695040888963407u;
    return (uint32_t)((seed >> 33) % n);
}

static size_t append32(uint8_t *d, size_t at, uint32_t x)
{
    x = __builtin_bswap32(x);
    memcpy(d + at, &x, 4);
    return at + 4;
}

static size_t append64(uint8_t *d, size_t at, uint64_t x)
{
    return append32(d, append32(d, at, (uint32_t)(x >> 32)), (uint32_t)x);
}

static uint64_t some_bytes(void)
{
    static const uint64_t edges[] = {0, 1, 4096, 0xffffffff, 0x100000000, 1ull << 63, UINT64_MAX - 1, UINT64_MAX};
    return edges[chance(sizeof edges / sizeof *edges)] + (chance(4) == 0 ? chance(1000) : 0);
}

/* What a request was made of, and where in it a fault can be put: its count of statistics, their strings and handles, and their booleans. */
struct made {
    size_t len, errors, statistics, count, opaques, opaque[15], boolean[5];
    struct error e[MOST_ERRORS];
    struct statistic y[5];
};

enum { BODY = 52, NONE_TOO_LONG = 15 };

static size_t put_opaque(uint8_t *d, size_t at, uint32_t len)
{
    at = append32(d, at, len);
    memset(d + at, 1 + (int)chance(255), len);
    memset(d + at + len, 0, 3);
    return at + (len + 3) / 4 * 4;
}

/* Error records with any number of device errors, status 0 among them. */
static size_t put_errors(uint8_t *d, size_t at, struct made *m)
{
    uint32_t records = chance(8);
    at = append32(d, at, records);
    m->errors = 0;
    for (uint32_t r = 0; r < records; r++) {
        for (int i = 0; i < 8; i++)
            at = append32(d, at, chance(1000));
        uint32_t devices = chance(5);
        at = append32(d, at, devices);
        for (uint32_t j = 0; j < devices; j++) {
            uint32_t status = chance(3) == 0 ? 0 : chance(20000);
            m->e[m->errors++] = (struct error){at - BODY, status};
            for (int i = 0; i < 4; i++)
                at = append32(d, at, chance(3));
            at = append32(d, at, status);
            at = append32(d, at, 38);
        }
    }
    return at;
}

/* A statistics record, field by field; its strings and handle often have 127 or 128 bytes, and 129 to 132 where one is to be too long. */
static size_t put_statistic(uint8_t *d, size_t at, struct made *m, size_t too_long)
{
    uint64_t read = some_bytes(), written = some_bytes();
    at = append64(d, at, some_bytes());
    at = append64(d, at, some_bytes());
    for (int i = 0; i < 4; i++)
        at = append32(d, at, chance(1000));
    at = append64(d, at, some_bytes());
    at = append64(d, at, read);
    at = append64(d, at, some_bytes());
    at = append64(d, at, written);
    m->y[m->statistics] = (struct statistic){at - BODY, read, written};
    for (int i = 0; i < 4; i++)
        at = append32(d, at, chance(3));
    for (int i = 0; i < 3; i++) {
        uint32_t len = m->opaques == too_long ? 129 + chance(4) : chance(3) == 0 ? 127 + chance(2) : chance(129);
        m->opaque[m->opaques++] = at;
        at = put_opaque(d, at, len);
    }
    for (int i = 0; i < 2; i++) {
        for (int j = 0; j < 5; j++)
            at = append64(d, at, some_bytes());
        for (int j = 0; j < 2; j++)
            at = append32(d, append64(d, at, some_bytes()), chance(1000000000));
    }
    at = append32(d, append64(d, at, some_bytes()), chance(1000000000));
    m->boolean[m->statistics++] = at;
    return append32(d, at, chance(2));
}

/* A well-formed request, but for the one string or handle that is too long. */
static void made_up(uint8_t *d, struct made *m, size_t too_long)
{
    size_t at = 0;
    at = append32(d, at, chance(2));
    at = append32(d, at, 4);
    at = append32(d, at, 1 + chance(3));
    at = append32(d, at, 1);
    for (int i = 0; i < 4; i++)
        at = append32(d, at, chance(7));
    static const uint32_t seqids[] = {0, 1, 2, UINT32_MAX}, fills[] = {0, UINT32_MAX, 7};
    uint32_t anonymous = chance(2), fill = anonymous ? 0 : fills[chance(3)];
    at = append32(d, at, anonymous ? 0 : seqids[chance(4)]);
    for (int i = 0; i < 3; i++)
        at = append32(d, at, fill);
    if (!anonymous && chance(3) == 0)
        d[chance(2) ? 36 : 47] ^= (uint8_t)(1 + chance(255));
    at = put_errors(d, BODY, m);
    uint32_t records = too_long < NONE_TOO_LONG ? 1 + (uint32_t)too_long / 3 + chance(5 - (uint32_t)too_long / 3) : chance(6);
    m->count = at;
    m->statistics = m->opaques = 0;
    at = append32(d, at, records);
    for (uint32_t i = 0; i < records; i++)
        at = put_statistic(d, at, m, too_long);
    append32(d, BODY - 4, (uint32_t)(at - BODY));
    m->len = at;
}

/* The request with a body of another length, and zeros for what is new. */
static void resize(uint8_t *d, struct made *m, size_t body)
{
    size_t len = BODY + (body + 3) / 4 * 4;
    memset(d + BODY + body, 0, len - BODY - body);
    if (len > m->len)
        memset(d + m->len, 0, len - m->len);
    append32(d, BODY - 4, (uint32_t)body);
    m->len = len;
}

/* Puts a byte that is not zero into the padding of a string or handle, from a random one on; 0 where none has padding. */
static int bad_padding(uint8_t *d, const struct made *m)
{
    size_t first = m->opaques == 0 ? 0 : chance((uint32_t)m->opaques);
    for (size_t i = 0; i < m->opaques; i++) {
        size_t at = m->opaque[(first + i) % m->opaques];
        uint32_t len = be32(d + at), padding = (4 - len % 4) % 4;
        if (padding != 0) {
            d[at + 4 + len + chance(padding)] = (uint8_t)(1 + chance(255));
            return 1;
        }
    }
    return 0;
}

/* One fault of a body, of a kind; 0 where the request has no place for it. */
enum { TOO_LONG, PADDING, BOOLEAN, COUNT_HIGH, COUNT_LOW, CUT, SPARE, FAULTS };

static int fault(uint8_t *d, struct made *m, int kind)
{
    size_t body = be32(d + BODY - 4);
    uint32_t records = (uint32_t)m->statistics;
    switch (kind) {
    case TOO_LONG:
        made_up(d, m, chance(NONE_TOO_LONG));
        return 1;
    case PADDING:
        return bad_padding(d, m);
    case BOOLEAN:
        if (records != 0)
            append32(d, m->boolean[chance(records)], chance(2) ? 2 + chance(4) : 1u << (1 + chance(31)));
        return records != 0;
    case COUNT_HIGH:
        append32(d, m->count, chance(2) ? records + 1 : 0xffffffff - chance(3));
        return 1;
    case COUNT_LOW:
        if (records != 0)
            append32(d, m->count, chance(records));
        return records != 0;
    case CUT:
        resize(d, m, chance(2) ? body - 1 - chance(8) : chance((uint32_t)body));
        return 1;
    default:
        resize(d, m, body + 1 + chance(8));
        return 1;
    }
}

/* A well-formed request is accepted, and its walks give what it was made of. */
static void whole(unsigned long line, const uint8_t *d, const struct made *m)
{
    static struct error e[MOST_ERRORS];
    static struct statistic y[MOST_STATISTICS];
    uint32_t kind, end;
    uint64_t at, len;
    if (sc_layoutreturn_check(d, m->len, &kind, &at, &len) != 0 || kind < 2 || at != BODY || len != m->len - BODY || sc_report_check(d + at, len) != 0) {
        differs("made up", line, "a well-formed request is refused");
        return;
    }
    if (walk(sc_report_next, d + at, len, e, &end) != m->errors || end != 0 || memcmp(e, m->e, m->errors * sizeof *e) != 0)
        differs("made up", line, "the walk gives other device errors than the request was made of");
    if (walk_statistics(sc_statistics_next, d + at, len, y, &end) != m->statistics || end != 0 || memcmp(y, m->y, m->statistics * sizeof *y) != 0)
        differs("made up", line, "the walk gives other statistics than the request was made of");
    errors_compared += m->errors;
    statistics_compared += m->statistics;
}

/* Damage by chance: a number, a length, a count, a few bytes, the length, or padding. Answers the length. */
static size_t damage(uint8_t *d, const struct made *m)
{
    static const uint32_t odd[] = {0, 1, 2, 3, 4, 5, 8, 127, 128, 129, 132, 255, 4096, 4097, 0x7fffffff, 0x80000000, 0xffffffff};
    size_t n = m->len;
    for (uint32_t k = 1 + chance(2); k > 0 && n >= BODY + 4; k--)
        switch (chance(8)) {
        case 0:
            append32(d, 4 * chance((uint32_t)(n / 4)), odd[chance(sizeof odd / sizeof *odd)]);
            break;
        case 1:
            append32(d, BODY - 4, be32(d + BODY - 4) + chance(9) - 4);
            break;
        case 2:
            n = chance((uint32_t)n + 1);
            break;
        case 3:
            n += 1 + chance(8);
            break;
        case 4:
            append32(d, BODY, be32(d + BODY) + chance(3) - 1);
            break;
        case 5:
            append32(d, m->count, be32(d + m->count) + chance(3) - 1);
            break;
        case 6:
            if (m->opaques != 0) {
                size_t at = m->opaque[chance((uint32_t)m->opaques)];
                append32(d, at, be32(d + at) + chance(9) - 4);
            }
            break;
        default:
            d[chance((uint32_t)n + 1)] ^= (uint8_t)(1u << chance(8));
        }
    return n;
}

/* Made-up requests: whole; with one fault, which is refused; damaged by chance, beside plain C. Answers how many; `faults` is how many of each kind. */
static unsigned long by_chance(unsigned long *faults)
{
    static uint8_t d[MOST_BYTES];
    static struct made m;
    unsigned long cases = 0;
    for (; cases < 60000; cases++) {
        made_up(d, &m, NONE_TOO_LONG);
        whole(cases, d, &m);
        int kind = (int)chance(2 * FAULTS);
        if (kind >= FAULTS) {
            beside_plain("damaged by chance", cases, d, damage(d, &m));
        } else if (fault(d, &m, kind)) {
            faults[kind]++;
            uint32_t told;
            uint64_t at, len;
            if (sc_layoutreturn_check(d, m.len, &told, &at, &len) != 0 || sc_report_check(d + at, len) != 10036)
                differs("made up", cases, "a fault is not refused in step 5");
            beside_plain("made up with a fault", cases, d, m.len);
        }
        memset(d, 0, sizeof d);
    }
    return cases;
}

/* Every size of body up to the limit and past it, with right and wrong padding, in a request with nothing after it. */
static unsigned long by_size(void)
{
    static uint8_t d[MOST_BYTES];
    unsigned long cases = 0;
    for (uint32_t size = 0; size <= 4104; size++) {
        memset(d, 0, sizeof d);
        append32(d, 4, 4);
        append32(d, 8, 3);
        append32(d, 12, 1);
        append32(d, 48, size);
        memset(d + 52, 0xff, size);
        size_t n = 52 + (size + 3) / 4 * 4;
        for (size_t spare = 0; spare < 3; spare++, cases++)
            beside_plain("by size", size, d, n + spare - 1);
        for (size_t i = 52 + size; i < n; i++, cases++) {
            d[i] = 1;
            beside_plain("by padding", size, d, n);
            d[i] = 0;
        }
    }
    return cases;
}

/* The reply of any status in a buffer of any size, beside plain C. */
static unsigned long replies(void)
{
    static const uint32_t statuses[] = {0, 1, 22, 70, 10013, 10025, 10033, 10034, 10036, 0x01020304, 0xffffffff};
    unsigned long cases = 0;
    for (size_t size = 0; size <= 64; size++)
        for (size_t i = 0; i < sizeof statuses / sizeof *statuses; i++, cases++) {
            uint8_t d[72], want[72];
            memset(d, 0xa5, sizeof d);
            memset(want, 0xa5, sizeof want);
            uint32_t told = plain_layoutreturn_reply(want, size, statuses[i]);
            if (sc_layoutreturn_reply(d, size, statuses[i]) != told || memcmp(d, want, sizeof d) != 0)
                differs("reply", size, "another reply");
        }
    return cases;
}

int main(int count, char **words)
{
    if (count != 3) {
        fprintf(stderr, "usage: layoutreturn DAMAGED LINUX\n");
        return 1;
    }
    unsigned long faults[FAULTS] = {0}, all_faults = 0;
    unsigned long a = damaged(words[1]), b = linux_client(words[2]);
    unsigned long c = by_chance(faults), d = by_size(), e = replies();
    if (a == 0)
        differs(words[1], 0, "no cases");
    if (b == 0)
        differs(words[2], 0, "no cases");
    if (errors_compared == 0 || statistics_compared == 0)
        differs("device errors and statistics", 0, "none were compared");
    for (int kind = 0; kind < FAULTS; kind++) {
        all_faults += faults[kind];
        if (faults[kind] == 0)
            differs("made up", (unsigned long)kind, "a kind of fault that never came up");
    }
    printf("layoutreturn: %lu damaged and %lu Linux requests, %lu made up (%lu with a fault), %lu sizes, %lu replies, %lu device errors, %lu statistics; "
           "%lu differences\n",
           a, b, c, all_faults, d, e, errors_compared, statistics_compared, differences);
    return differences != 0;
}
