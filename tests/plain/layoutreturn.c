/* LAYOUTRETURN requests, their bodies and their replies in plain C: the checks, the two walks, and the reply. */
#include "layoutreturn.h"
#include "plain.h"

uint32_t FN(layoutreturn_check)(const uint8_t *request, size_t request_len, uint32_t *kind, uint64_t *at, uint64_t *len)
{
    return request_check(request, request_len, kind, at, len);
}

/* The place past the error records and their count; 0 where they are malformed. */
static size_t past_errors(const uint8_t *s, size_t n)
{
    if (n < 4)
        return 0;
    size_t at = 4;
    for (uint32_t records = be32(s); records != 0; records--) {
        if (n - at < ERROR_RECORD)
            return 0;
        size_t size = DEVICE_ERROR * (size_t)be32(s + at + 32);
        if (n - at - ERROR_RECORD < size)
            return 0;
        at += ERROR_RECORD + size;
    }
    return at;
}

/* What step 5 says of the statistics records whose count is at a place. */
static uint32_t statistics_check(const uint8_t *s, size_t n, size_t at)
{
    if (n - at < 4)
        return BADXDR;
    uint32_t records = be32(s + at);
    for (at += 4; records != 0; records--)
        if ((at = past_statistic(s, n, at)) == 0)
            return BADXDR;
    return at == n ? 0 : BADXDR;
}

uint32_t FN(report_check)(const uint8_t *body, size_t body_len)
{
    size_t at = past_errors(body, body_len);
    return at == 0 ? BADXDR : statistics_check(body, body_len, at);
}

uint32_t FN(report_next)(const uint8_t *s, size_t n, uint64_t *at, uint32_t *records, uint32_t *devices, uint64_t *device, uint32_t *status)
{
    uint64_t a = *at;
    uint32_t r = *records, d = *devices;
    if (a == 0) {
        r = n < 4 ? 0 : be32(s);
        a = n < 4 ? 0 : 4;
        d = 0;
    }
    *status = 0;
    *device = 0;
    size_t left = a < n ? n - a : 0;
    while (d == 0) {
        if (r == 0)
            return a > n ? BADXDR : statistics_check(s, n, a);
        if (left < ERROR_RECORD)
            return BADXDR;
        d = be32(s + a + 32);
        a += ERROR_RECORD;
        left -= ERROR_RECORD;
        if (left < DEVICE_ERROR * (size_t)d)
            return BADXDR;
        r--;
    }
    if (left < DEVICE_ERROR)
        return BADXDR;
    *device = a;
    *status = be32(s + a + 16);
    *at = a + DEVICE_ERROR;
    *records = r;
    *devices = d - 1;
    return 1;
}

uint32_t FN(statistics_next)(const uint8_t *s, size_t n, uint64_t *at, uint32_t *left, uint64_t *device, uint64_t *read, uint64_t *written)
{
    uint64_t a = *at;
    uint32_t more = *left;
    *device = *read = *written = 0;
    if (a == 0) {
        a = past_errors(s, n);
        if (a == 0 || n - a < 4)
            return BADXDR;
        more = be32(s + a);
        a += 4;
    }
    if (a > n)
        return BADXDR;
    if (more == 0)
        return a == n ? 0 : BADXDR;
    size_t end = past_statistic(s, n, a);
    if (end == 0)
        return BADXDR;
    *device = a + STATISTIC_DEVICE;
    *read = be64(s + a + STATISTIC_READ);
    *written = be64(s + a + STATISTIC_WRITTEN);
    *at = end;
    *left = more - 1;
    return 1;
}

uint32_t FN(layoutreturn_reply)(uint8_t *reply, size_t reply_len, uint32_t status)
{
    if (reply_len < 24)
        return 28;
    reply_write(reply, status);
    return status;
}
