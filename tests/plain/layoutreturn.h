/* The parts of LAYOUTRETURN's checks that layoutreturn.c and record.c share: steps 1 to 3 of a request, where the records of a body end, and the reply. */
#ifndef PLAIN_LAYOUTRETURN_H
#define PLAIN_LAYOUTRETURN_H

#include "bytes.h"
#include <stdbool.h>
#include <stddef.h>

enum { BADXDR = 10036, UNKNOWN_LAYOUTTYPE = 10062, BADIOMODE = 10049, BODY_LIMIT = 4096, OPAQUE_LIMIT = 128 };

/* What a request is: refused, handed on, or a file's return by the kind of its stateid (RFC 8881, 8.2.3). */
enum { REQUEST_REFUSED, REQUEST_HANDED_ON, REQUEST_ORDINARY, REQUEST_ANONYMOUS, REQUEST_BYPASS, REQUEST_CURRENT, REQUEST_INVALID };

/* An error record up to its device errors, and one of these. */
enum { ERROR_RECORD = 36, DEVICE_ERROR = 24 };

/* Places of a statistics record: its own counts of bytes, its device, and its end behind three opaque fields. */
enum {
    STATISTIC_READ = 40,    /* past offset, length, stateid, and the count of reads */
    STATISTIC_WRITTEN = 56, /* past the bytes read and the count of writes */
    STATISTIC_DEVICE = 64,  /* past the bytes written */
    STATISTIC_UPDATE = 80,  /* past the device: the opaque fields */
    STATISTIC_LOCAL = 140,  /* past the opaque fields: two latencies of five numbers and two times of 12 bytes, and a time: the boolean */
    STATISTIC_END = 144
};

/* Where the stateid of a file's return lies, and its parts. */
enum { STATEID = 32, OTHER = 4, OTHER_LEN = 12 };

static inline bool is_zeros(const uint8_t *other)
{
    static const uint8_t zeros[OTHER_LEN];
    return memcmp(other, zeros, OTHER_LEN) == 0;
}

static inline bool is_ones(const uint8_t *other)
{
    static const uint8_t ones[OTHER_LEN] = {255, 255, 255, 255, 255, 255, 255, 255, 255, 255, 255, 255};
    return memcmp(other, ones, OTHER_LEN) == 0;
}

/* The kind of a stateid. */
static inline uint32_t stateid_kind(const uint8_t *s)
{
    uint32_t seqid = be32(s);
    if (is_zeros(s + OTHER))
        return seqid == 0 ? REQUEST_ANONYMOUS : seqid == 1 ? REQUEST_CURRENT : REQUEST_INVALID;
    if (is_ones(s + OTHER))
        return seqid == UINT32_MAX ? REQUEST_BYPASS : REQUEST_INVALID;
    return REQUEST_ORDINARY;
}

/* Steps 1 to 3. */
static inline uint32_t request_check(const uint8_t *s, size_t n, uint32_t *kind, uint64_t *at, uint64_t *len)
{
    static const uint8_t zeros[4];
    uint32_t body = 0;
    *kind = REQUEST_REFUSED;
    *at = *len = 0;
    if (n < 16 || be32(s) > 1)
        return BADXDR;
    uint32_t type = be32(s + 12);
    if (type == 1) {
        if (n < 52 || (body = be32(s + 48)) > BODY_LIMIT)
            return BADXDR;
        size_t padded = (body + 3) / 4 * 4;
        if (n != 52 + padded || memcmp(s + 52 + body, zeros, padded - body) != 0)
            return BADXDR;
    } else if (type < 1 || type > 3 || n != 16) {
        return BADXDR;
    }
    if (be32(s + 4) != 4)
        return UNKNOWN_LAYOUTTYPE;
    if (be32(s + 8) < 1 || be32(s + 8) > 3)
        return BADIOMODE;
    if (type != 1) {
        *kind = REQUEST_HANDED_ON;
        return 0;
    }
    *kind = stateid_kind(s + STATEID);
    *at = 52;
    *len = body;
    return 0;
}

/* The place past a string or handle of at most 128 bytes and its padding; 0 where it is malformed. */
static inline size_t past_opaque(const uint8_t *s, size_t n, size_t at)
{
    if (n - at < 4)
        return 0;
    size_t len = be32(s + at), padded = (len + 3) / 4 * 4;
    if (len > OPAQUE_LIMIT || n - at - 4 < padded)
        return 0;
    for (size_t i = len; i < padded; i++)
        if (s[at + 4 + i] != 0)
            return 0;
    return at + 4 + padded;
}

/* The place past a statistics record; 0 where it is malformed. */
static inline size_t past_statistic(const uint8_t *s, size_t n, size_t at)
{
    if (n - at < STATISTIC_UPDATE)
        return 0;
    at += STATISTIC_UPDATE;
    for (int i = 0; i < 3; i++)
        if ((at = past_opaque(s, n, at)) == 0)
            return 0;
    return n - at < STATISTIC_END || be32(s + at + STATISTIC_LOCAL) > 1 ? 0 : at + STATISTIC_END;
}

/* Where the stateid of a reply lies. */
enum { REPLY_STATEID = 8 };

/* The reply of a status, into 24 bytes: 4 of them, or all where the status is 0, with a stateid of zeros. */
static inline void reply_write(uint8_t *reply, uint32_t status)
{
    put32(reply, status);
    if (status == 0) {
        memset(reply + 4, 0, 20);
        reply[7] = 1;
    }
}

#endif
