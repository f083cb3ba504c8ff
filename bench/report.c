/* The check of a report (step 5), which may take 1.2 times gcc's time, and the walks of its device errors and of its statistics records, without a limit.
 * LINUX is the file of captured requests, whose largest body is one of the inputs. */
#include "bench.h"
#include "bytes.h"
#include "plain.h"
#include "stellcircle.h"

PLAIN(gcc_)
PLAIN(clang_)

enum { MOST = 4096, CHECKS = 2000, WALKS = 100 };
static uint8_t body[MOST];
static size_t n;

static uint8_t *put_opaque(uint8_t *d, uint32_t len)
{
    put32(d, len);
    memset(d + 4, 'x', len);
    return d + 4 + (len + 3) / 4 * 4;
}

/* `records` error records of `devices` device errors each, and `statistics` statistics records whose address parts and handles have so many bytes. */
static void make(uint32_t records, uint32_t devices, uint32_t statistics, const uint32_t *lens)
{
    uint8_t *at = body + 4;
    memset(body, 0, MOST);
    put32(body, records);
    for (uint32_t i = 0; i < records; i++) {
        put32(at + 32, devices);
        at += 36;
        for (uint32_t j = 0; j < devices; j++, at += 24)
            put32(at + 16, j % 7);
    }
    put32(at, statistics);
    at += 4;
    for (uint32_t i = 0; i < statistics; i++) {
        put32(at + 44, 4096);
        at += 80;
        for (int j = 0; j < 3; j++)
            at = put_opaque(at, lens[j]);
        at += 144;
    }
    n = (size_t)(at - body);
}

static int digit(int c)
{
    return c >= '0' && c <= '9' ? c - '0' : c >= 'a' && c <= 'f' ? c - 'a' + 10 : -1;
}

/* The largest body of the captured requests. */
static void largest(void)
{
    static char line[65536];
    FILE *f = fopen(LINUX, "r");
    n = 0;
    while (f != NULL && fgets(line, sizeof line, f) != NULL) {
        static uint8_t request[sizeof line / 2];
        size_t bytes = 0;
        for (char *h = line; digit(h[0]) >= 0 && digit(h[1]) >= 0; h += 2)
            request[bytes++] = (uint8_t)(digit(h[0]) * 16 + digit(h[1]));
        uint32_t kind;
        uint64_t at, len;
        if (sc_layoutreturn_check(request, bytes, &kind, &at, &len) == 0 && len > n) {
            n = len;
            memcpy(body, request + at, len);
        }
    }
    if (f != NULL)
        fclose(f);
    if (n == 0)
        exit(1);
}

static void prepare(void)
{
    static const uint32_t linux_lens[3] = {3, 12, 128}, none[3], odd[3] = {125, 126, 127};
    switch (bench_argument) {
    case 0: largest(); break;
    case 1: make(68, 1, 0, none); break;
    case 2: make(113, 0, 0, none); break;
    case 3: make(1, 168, 0, none); break;
    case 4: make(20, 1, 4, linux_lens); break;
    case 5: make(17, 1, 8, linux_lens); break;
    case 6: make(0, 0, 17, none); break;
    default: make(0, 0, 6, odd);
    }
}

static void nothing(void) {}

#define VERSION(P, FORM) \
    static void P##check(void) \
    { \
        for (int i = 0; i < CHECKS; i++) \
            bench_sum[FORM] += P##report_check(body, n); \
    } \
    static void P##errors(void) \
    { \
        for (int i = 0; i < WALKS; i++) { \
            uint64_t at = 0, device; \
            uint32_t records = 0, devices = 0, status; \
            while (P##report_next(body, n, &at, &records, &devices, &device, &status) == 1) \
                bench_sum[FORM] += status + device; \
        } \
    } \
    static void P##statistics(void) \
    { \
        for (int i = 0; i < WALKS; i++) { \
            uint64_t at = 0, device, read, written; \
            uint32_t left = 0; \
            while (P##statistics_next(body, n, &at, &left, &device, &read, &written) == 1) \
                bench_sum[FORM] += device + read + written; \
        } \
    }
VERSION(sc_, 0)
VERSION(gcc_, 1)
VERSION(clang_, 2)

#define BODY(WHAT, WHICH) \
    {"report check: " WHAT, CHECKS, 1.2, WHICH, {prepare, nothing, nothing}, BENCH_FORMS(check)}, \
    {"report errors: " WHAT, WALKS, 0, WHICH, {prepare, nothing, nothing}, BENCH_FORMS(errors)}, \
    {"report statistics: " WHAT, WALKS, 0, WHICH, {prepare, nothing, nothing}, BENCH_FORMS(statistics)}
static const struct bench_job jobs[] = {
    BODY("the largest captured", 0),          BODY("68 records, a device error each", 1), BODY("113 records, no device errors", 2), BODY("a record of 168 device errors", 3),
    BODY("20 errors, 4 statistics", 4), BODY("17 errors, 8 statistics", 5),  BODY("17 statistics, empty strings", 6),     BODY("6 statistics, all padding", 7),
};

int main(int argc, char **argv)
{
    const struct bench b = {jobs, sizeof jobs / sizeof jobs[0], 400, NULL, NULL};
    return bench_main(&b, argc, argv);
}
