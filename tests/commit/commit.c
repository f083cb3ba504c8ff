/* What the desk can't reach of merging and of LAYOUTCOMMIT, through the C exports and in plain C: columns that do not all hold the same whole number of extents get 1 at place 0 before all else,
 * and leave the buffer as it was; and a commit list is read at any alignment. */
#include "plain.h"
#include "stellcircle.h"
#include <stdio.h>
#include <string.h>

PLAIN(plain_)

enum { N = 3, COLUMNS = 5, ROOM = 4 + 44 * 8, LIST = 4 + 16 * 2, ALIGNMENTS = 8 };

/* Invalid extents of a block each, in a row in the file and in storage; a place more in each column than is lent. */
static const uint8_t devices[16 * (N + 1)];
static const uint64_t offsets[N + 1] = {0, 8, 16, 24}, lengths[N + 1] = {8, 8, 8, 8}, storages[N + 1] = {80, 88, 96, 104};
static const uint32_t states[N + 1] = {2, 2, 2, 2};

/* The first block and the third are committed: of the three extents three are left. */
static const uint8_t commits[LIST] = {[3] = 2, [4 + 15] = 8, [4 + 16 + 7] = 16, [4 + 16 + 15] = 8};

static int bad;
static unsigned long calls;

typedef uint32_t merge_call(const uint8_t *, size_t, const uint64_t *, size_t, const uint64_t *, size_t, const uint64_t *, size_t, const uint32_t *, size_t, uint8_t *,
                            size_t, uint64_t *);
typedef uint32_t commit_call(const uint8_t *, size_t, uint64_t, const uint8_t *, size_t, const uint64_t *, size_t, const uint64_t *, size_t, const uint64_t *, size_t,
                             const uint32_t *, size_t, uint8_t *, size_t, uint64_t *);

/* An answer, and a buffer that was filled before the call: `left` extents are written, or nothing. */
static void expect(const char *what, uint32_t answer, uint64_t place, uint32_t wanted, uint64_t left, const uint8_t *out)
{
    size_t written = wanted == 0 ? 4 + 44 * (size_t)left : 0;
    int same = answer == wanted && place == left && (written == 0 || out[3] == left);
    for (size_t i = written; i < ROOM; i++)
        same &= out[i] == 0xa5;
    if (!same) {
        printf("%s: %u at %llu\n", what, answer, (unsigned long long)place);
        bad = 1;
    }
    calls++;
}

/* Lengths of the five columns, of which one is `by` off. */
static void uneven(const char *what, merge_call *merge, commit_call *commit, int column, int by)
{
    static const size_t lists[] = {LIST, LIST - 1, 0};
    size_t n[COLUMNS] = {16 * N, N, N, N, N};
    uint8_t out[ROOM];
    uint64_t place = 77;
    n[column] = (size_t)((long)n[column] + by);
    memset(out, 0xa5, sizeof out);
    uint32_t answer = merge(devices, n[0], offsets, n[1], lengths, n[2], storages, n[3], states, n[4], out, sizeof out, &place);
    expect(what, answer, place, 1, 0, out);
    for (size_t k = 0; k < sizeof lists / sizeof lists[0]; k++) {
        for (uint64_t block = 0; block <= 8; block += 8) {
            place = 77;
            answer = commit(commits, lists[k], block, devices, n[0], offsets, n[1], lengths, n[2], storages, n[3], states, n[4], out, k == 0 ? sizeof out : 0, &place);
            expect(what, answer, place, 1, 0, out);
        }
    }
}

static void run(const char *what, merge_call *merge, commit_call *commit)
{
    static const int off[] = {-16, -1, 1, 16};
    for (int column = 0; column < COLUMNS; column++)
        for (int k = column == 0 ? 0 : 1; k < (column == 0 ? 4 : 3); k++)
            uneven(what, merge, commit, column, off[k]);
    for (size_t at = 0; at < ALIGNMENTS; at++) {
        uint8_t moved[LIST + ALIGNMENTS], out[ROOM];
        uint64_t place = 77;
        memcpy(moved + at, commits, LIST);
        memset(out, 0xa5, sizeof out);
        uint32_t answer = commit(moved + at, LIST, 8, devices, 16 * N, offsets, N, lengths, N, storages, N, states, N, out, sizeof out, &place);
        expect(what, answer, place, 0, 3, out);
    }
}

int main(void)
{
    run("the library", sc_layout_merge, sc_layout_commit);
    run("plain C", plain_layout_merge, plain_layout_commit);
    printf("commit: %lu calls with uneven columns or a commit list at any alignment: %s\n", calls, bad ? "FAILED" : "as they must be");
    return bad;
}
