/* stellcircle-replay: runs calls, read as lines of text, on one recovery record, one epoch record and the wire checks, and prints one line for each.
   In this order: limits; lent buffers; words; the record and the epochs; printing; the commands; the table of commands; lines; main.

   The form of a line (man/stellcircle-replay.1 says the same):
   - A line ends with a newline; the last one may lack it. Lines are numbered from 1, skipped ones included.
   - Words stand apart by any number of spaces, tabs and carriage returns, which may also begin and end a line. Any other byte is part of a word.
   - A line without words, or whose first word begins with '#', is skipped and prints nothing.
   - A line of more than MAX_LINE bytes can't be read, whatever it holds.
   - A number is one or more decimal digits; leading zeros are fine. Bytes are an even number of hex digits of either case, or '-' for none.
   - A number or bytes past the limit of their place, an unknown command, and a word too many or too few make a line that can't be read. */
#include "stellcircle.h"

#include <inttypes.h>
#include <stdbool.h>
#include <stdio.h>
#include <stdlib.h>
#include <string.h>

enum {
    MAX_REQUEST = 16384, /* bytes of a LAYOUTRETURN request, a mirror list, a proxy's device or a stateid's other */
    MAX_BODY = 65536,    /* bytes of a layout body or a commit list */
    MAX_ROOM = 65536,    /* places of a lent reply or list */
    MAX_LIST = 196608,   /* bytes of extents to write */
    MAX_LINE = 524288,   /* bytes of a line, the newline not counted */
    MAX_WORDS = 5,
    GUARD = 64, /* bytes before and after each lent buffer; a multiple of every alignment */
    REPLY_REFUSED = 4,
    REPLY_ACCEPTED = 24,
    NO_ROOM = 28
};

enum { EXIT_TROUBLE = 1, EXIT_USAGE = 2, EXIT_BROKEN = 3 };

/* Ends the run over trouble with input, output or memory. */
static _Noreturn void trouble(const char *what)
{
    fprintf(stderr, "stellcircle-replay: %s\n", what);
    exit(EXIT_TROUBLE);
}

/* The line that is being run, for messages. */
static uint64_t line_number;

/* Ends the run because a library wrote, or answered, what the paper forbids; the answers so far are still printed. */
static _Noreturn void broken(const char *what)
{
    fflush(stdout);
    fprintf(stderr, "stellcircle-replay: line %" PRIu64 ": %s\n", line_number, what);
    exit(EXIT_BROKEN);
}

/* ---- Lent buffers: `len` bytes with GUARD bytes on either side; guards and bytes alike are filled with a pattern. ---- */

struct lent {
    uint8_t *area;
    size_t len;
};

static uint8_t pattern(size_t i)
{
    return (uint8_t)(i * 167 + (i >> 8) * 31 + 13);
}

static struct lent lend(size_t len)
{
    struct lent l = {malloc(GUARD + len + GUARD), len};
    if (l.area == NULL)
        trouble("out of memory");
    for (size_t i = 0; i < GUARD + len + GUARD; i++)
        l.area[i] = pattern(i);
    return l;
}

/* What the library gets: never NULL, also where len is 0. */
static uint8_t *bytes_of(struct lent l)
{
    return l.area + GUARD;
}

/* Of the whole area only the first `written` lent bytes may differ from the pattern. */
static void check_lent(struct lent l, size_t written, const char *what)
{
    if (written > l.len)
        broken(what);
    for (size_t i = 0; i < GUARD; i++)
        if (l.area[i] != pattern(i))
            broken(what);
    for (size_t i = GUARD + written; i < GUARD + l.len + GUARD; i++)
        if (l.area[i] != pattern(i))
            broken(what);
}

static void give_back(struct lent l)
{
    free(l.area);
}

/* The 64-bit number that a library wrote into a lent place of 8 bytes. */
static uint64_t number_in(struct lent l)
{
    uint64_t n;
    memcpy(&n, bytes_of(l), sizeof n);
    return n;
}

/* ---- Words ---- */

struct word {
    const uint8_t *text;
    size_t len;
};

static bool is_blank(uint8_t c)
{
    return c == ' ' || c == '\t' || c == '\r';
}

static bool word_is(struct word w, const char *text)
{
    return w.len == strlen(text) && memcmp(w.text, text, w.len) == 0;
}

/* Splits a line; one word more than MAX_WORDS stands for any number more. */
static size_t split(const uint8_t *line, size_t len, struct word *words)
{
    size_t count = 0, at = 0;
    while (count <= MAX_WORDS) {
        while (at < len && is_blank(line[at]))
            at++;
        if (at == len)
            break;
        size_t from = at;
        while (at < len && !is_blank(line[at]))
            at++;
        words[count++] = (struct word){line + from, at - from};
    }
    return count;
}

static bool read_number(struct word w, uint64_t most, uint64_t *number)
{
    uint64_t n = 0;
    for (size_t i = 0; i < w.len; i++) {
        if (w.text[i] < '0' || w.text[i] > '9')
            return false;
        uint64_t digit = (uint64_t)(w.text[i] - '0');
        if (n > (most - digit) / 10)
            return false;
        n = n * 10 + digit;
    }
    *number = n;
    return w.len > 0;
}

/* The value of a hex digit, or -1. */
static int hex_digit(uint8_t c)
{
    if (c >= '0' && c <= '9')
        return c - '0';
    if (c >= 'a' && c <= 'f')
        return c - 'a' + 10;
    if (c >= 'A' && c <= 'F')
        return c - 'A' + 10;
    return -1;
}

/* Byte i of a word of hex digits, or -1. */
static int hex_byte(struct word w, size_t i)
{
    int high = hex_digit(w.text[2 * i]), low = hex_digit(w.text[2 * i + 1]);
    return high < 0 || low < 0 ? -1 : high * 16 + low;
}

/* Reads the word's bytes into a new lent buffer, which the caller gives back; false lends nothing. */
static bool read_bytes(struct word w, size_t most, struct lent *bytes)
{
    bool none = word_is(w, "-");
    size_t len = none ? 0 : w.len / 2;
    if (!none && (w.len % 2 != 0 || len > most))
        return false;
    for (size_t i = 0; i < len; i++)
        if (hex_byte(w, i) < 0)
            return false;
    *bytes = lend(len);
    for (size_t i = 0; i < len; i++)
        bytes_of(*bytes)[i] = (uint8_t)hex_byte(w, i);
    return true;
}

/* Takes back a buffer that was lent for reading only: each byte has to be the word's still. */
static void take_back_bytes(struct word w, struct lent bytes, const char *what)
{
    check_lent(bytes, bytes.len, what);
    for (size_t i = 0; i < bytes.len; i++)
        if (bytes_of(bytes)[i] != hex_byte(w, i))
            broken(what);
    give_back(bytes);
}

/* ---- The record and the epochs that every call runs on, and a copy of each for calls that may not change it ---- */

static struct lent record_held, epochs_held;
static struct sc_record *record, *record_before;
static struct sc_epochs *epochs, *epochs_before;

static void set_up(void)
{
    record_held = lend(sizeof *record);
    epochs_held = lend(sizeof *epochs);
    record = (struct sc_record *)(void *)bytes_of(record_held);
    epochs = (struct sc_epochs *)(void *)bytes_of(epochs_held);
    record_before = malloc(sizeof *record);
    epochs_before = malloc(sizeof *epochs);
    if (record_before == NULL || epochs_before == NULL)
        trouble("out of memory");
}

static void check_held(void)
{
    check_lent(record_held, record_held.len, "bytes beside the record changed");
    check_lent(epochs_held, epochs_held.len, "bytes beside the epochs changed");
}

/* What the latest LAYOUTRETURN counted: for each place the bytes read and written, and masks of the places whose number is flagged. */
static struct {
    uint64_t read[SC_PLACES], written[SC_PLACES];
    uint32_t read_over, written_over;
} totals;

static void start_anew(void)
{
    sc_record_fresh(record);
    sc_epochs_fresh(epochs);
    memset(&totals, 0, sizeof totals);
    check_held();
}

static void clean_up(void)
{
    give_back(record_held);
    give_back(epochs_held);
    free(record_before);
    free(epochs_before);
}

/* ---- Printing ---- */

static void print_hex(const uint8_t *bytes, size_t len)
{
    for (size_t i = 0; i < len; i++) {
        putchar("0123456789abcdef"[bytes[i] >> 4]);
        putchar("0123456789abcdef"[bytes[i] & 15]);
    }
}

static void print_answer(uint32_t answer)
{
    check_held();
    printf("%" PRIu32 "\n", answer);
}

/* ---- The commands: each reads its arguments, and answers false, with nothing called or printed, where it can't ---- */

typedef uint32_t on_record(struct sc_record *);
typedef uint32_t on_file(struct sc_record *, uint64_t);
typedef uint32_t on_client(struct sc_record *, uint64_t, uint64_t);
typedef uint32_t on_devices(struct sc_record *, uint64_t, const uint8_t *, size_t);
typedef uint32_t listing(const struct sc_record *, uint64_t *, size_t, uint8_t *, size_t, uint64_t *);
typedef uint32_t listing_by(const struct sc_record *, uint64_t *, size_t, uint8_t *, size_t, uint64_t *, uint32_t);
typedef uint32_t on_node(struct sc_epochs *, uint32_t);
struct kind;

struct command {
    const char *name;
    size_t arguments;
    bool (*run)(const struct command *, const struct word *);
    union {
        on_record *record;
        on_file *file;
        on_client *client;
        on_devices *devices;
        listing *list;
        listing_by *list_by;
        on_node *node;
        const struct kind *kind;
    } call;
};

static bool run_on_record(const struct command *c, const struct word *argument)
{
    (void)argument;
    print_answer(c->call.record(record));
    return true;
}

static bool run_on_file(const struct command *c, const struct word *argument)
{
    uint64_t file;
    if (!read_number(argument[0], UINT64_MAX, &file))
        return false;
    print_answer(c->call.file(record, file));
    return true;
}

static bool run_on_client(const struct command *c, const struct word *argument)
{
    uint64_t file, client;
    if (!read_number(argument[0], UINT64_MAX, &file) || !read_number(argument[1], UINT64_MAX, &client))
        return false;
    print_answer(c->call.client(record, file, client));
    return true;
}

/* A file with the bytes of devices: a mirror list, or a proxy. */
static bool run_on_devices(const struct command *c, const struct word *argument)
{
    uint64_t file;
    struct lent devices;
    if (!read_number(argument[0], UINT64_MAX, &file) || !read_bytes(argument[1], MAX_REQUEST, &devices))
        return false;
    uint32_t answer = c->call.devices(record, file, bytes_of(devices), devices.len);
    take_back_bytes(argument[1], devices, "bytes in or beside the devices changed");
    print_answer(answer);
    return true;
}

/* A stateid for the client's intent on a file: its other, of any number of bytes. */
static bool run_stateid(const struct command *c, const struct word *argument)
{
    (void)c;
    uint64_t file, client;
    struct lent other;
    if (!read_number(argument[0], UINT64_MAX, &file) || !read_number(argument[1], UINT64_MAX, &client) || !read_bytes(argument[2], MAX_REQUEST, &other))
        return false;
    uint32_t answer = sc_record_set_up_stateid(record, file, client, bytes_of(other), other.len);
    take_back_bytes(argument[2], other, "bytes in or beside a stateid's other changed");
    print_answer(answer);
    return true;
}

/* How many bytes of the reply the paper lets this answer write. */
static size_t reply_written(uint32_t answer)
{
    if (answer == SC_HANDED_ON || answer == NO_ROOM)
        return 0;
    return answer == 0 ? REPLY_ACCEPTED : REPLY_REFUSED;
}

static void print_reply(uint32_t answer, struct lent reply)
{
    size_t written = reply_written(answer);
    check_lent(reply, written, "bytes past the written reply changed");
    check_held();
    if (answer == SC_HANDED_ON) {
        puts("handed on");
        return;
    }
    printf("%" PRIu32 "%s", answer, written > 0 ? " " : "");
    print_hex(bytes_of(reply), written);
    putchar('\n');
}

/* One column of totals, lent a place more than a file has: later places get 0. */
static void keep_totals(struct lent column, uint64_t *kept)
{
    uint64_t more;
    check_lent(column, column.len, "bytes beside a LAYOUTRETURN's totals changed");
    memcpy(kept, bytes_of(column), SC_PLACES * sizeof *kept);
    memcpy(&more, bytes_of(column) + SC_PLACES * sizeof *kept, sizeof more);
    if (more != 0)
        broken("a place that no file has was given a total");
    give_back(column);
}

static void keep_flags(struct lent mask, uint32_t *kept)
{
    check_lent(mask, mask.len, "bytes beside a LAYOUTRETURN's flags changed");
    memcpy(kept, bytes_of(mask), sizeof *kept);
    give_back(mask);
}

/* Only an accepted report counts bytes. */
static void check_totals(uint32_t answer)
{
    uint64_t any = totals.read_over | totals.written_over;
    for (size_t i = 0; i < SC_PLACES; i++)
        any |= totals.read[i] | totals.written[i];
    if (answer != 0 && any != 0)
        broken("a LAYOUTRETURN that is not accepted gave totals");
}

/* The call, with lent totals, which are kept. */
static uint32_t layoutreturn(uint64_t file, uint64_t client, struct lent request, struct lent reply)
{
    struct lent read = lend((SC_PLACES + 1) * sizeof(uint64_t)), written = lend((SC_PLACES + 1) * sizeof(uint64_t));
    struct lent read_over = lend(sizeof(uint32_t)), written_over = lend(sizeof(uint32_t));
    uint32_t answer = sc_record_layoutreturn(record, file, client, bytes_of(request), request.len, bytes_of(reply), reply.len,
                                             (uint64_t *)(void *)bytes_of(read), SC_PLACES + 1, (uint64_t *)(void *)bytes_of(written),
                                             SC_PLACES + 1, (uint32_t *)(void *)bytes_of(read_over), (uint32_t *)(void *)bytes_of(written_over));
    keep_totals(read, totals.read);
    keep_totals(written, totals.written);
    keep_flags(read_over, &totals.read_over);
    keep_flags(written_over, &totals.written_over);
    check_totals(answer);
    return answer;
}

static bool run_layoutreturn(const struct command *c, const struct word *argument)
{
    (void)c;
    uint64_t file, client, room;
    struct lent request;
    if (!read_number(argument[0], UINT64_MAX, &file) || !read_number(argument[1], UINT64_MAX, &client) ||
        !read_number(argument[2], MAX_ROOM, &room) || !read_bytes(argument[3], MAX_REQUEST, &request))
        return false;
    struct lent reply = lend((size_t)room);
    uint32_t answer = layoutreturn(file, client, request, reply);
    take_back_bytes(argument[3], request, "bytes in or beside the request changed");
    print_reply(answer, reply);
    give_back(reply);
    return true;
}

/* Prints what a request is: refused, handed on, or the kind of its stateid and where its body lies. */
static void print_request(uint32_t answer, uint32_t kind, uint64_t at, uint64_t len)
{
    static const char *const kinds[] = {"refused", "handed on", "ordinary", "anonymous", "bypass", "current", "invalid"};
    if (kind >= sizeof kinds / sizeof kinds[0] || (kind == SC_REQUEST_REFUSED) != (answer != 0))
        broken("a request is of no kind, or its kind belies the answer");
    if (kind == SC_REQUEST_REFUSED)
        printf("refused %" PRIu32 "\n", answer);
    else if (kind == SC_REQUEST_HANDED_ON)
        puts("handed on");
    else
        printf("%s %" PRIu64 " %" PRIu64 "\n", kinds[kind], at, len);
}

/* The check of a request; the numbers that it lends are written whatever they held. */
static bool run_request(const struct command *c, const struct word *argument)
{
    (void)c;
    struct lent request;
    if (!read_bytes(argument[0], MAX_REQUEST, &request))
        return false;
    struct lent kind = lend(sizeof(uint32_t)), at = lend(sizeof(uint64_t)), len = lend(sizeof(uint64_t));
    uint32_t answer = sc_layoutreturn_check(bytes_of(request), request.len, (uint32_t *)(void *)bytes_of(kind), (uint64_t *)(void *)bytes_of(at),
                                            (uint64_t *)(void *)bytes_of(len));
    take_back_bytes(argument[0], request, "bytes in or beside the request changed");
    check_lent(kind, kind.len, "bytes beside a request's kind changed");
    check_lent(at, at.len, "bytes beside the place of a request's body changed");
    check_lent(len, len.len, "bytes beside the length of a request's body changed");
    uint32_t found;
    memcpy(&found, bytes_of(kind), sizeof found);
    print_request(answer, found, number_in(at), number_in(len));
    give_back(kind);
    give_back(at);
    give_back(len);
    return true;
}

static void print_total(uint64_t bytes, bool over)
{
    printf("%" PRIu64 "%s", bytes, over ? "!" : "");
}

static bool run_totals(const struct command *c, const struct word *argument)
{
    (void)c;
    (void)argument;
    for (size_t i = 0; i < SC_PLACES; i++) {
        print_total(totals.read[i], totals.read_over >> i & 1);
        putchar(':');
        print_total(totals.written[i], totals.written_over >> i & 1);
        putchar(i + 1 < SC_PLACES ? ' ' : '\n');
    }
    return true;
}

static void print_listing(uint32_t answer, uint64_t count, struct lent files, struct lent sources)
{
    uint64_t filled = answer == 0 ? count : 0;
    if (filled > sources.len || filled > files.len / sizeof count)
        broken("a listing counts more places than it was lent");
    check_lent(files, (size_t)filled * sizeof count, "file places past the listing's count changed");
    check_lent(sources, (size_t)filled, "source places past the listing's count changed");
    check_held();
    printf("%" PRIu32 " %" PRIu64, answer, count);
    for (size_t i = 0; i < filled; i++) {
        uint64_t file;
        memcpy(&file, bytes_of(files) + i * sizeof file, sizeof file);
        printf(" %" PRIu64 ":%u", file, bytes_of(sources)[i]);
    }
    putchar('\n');
}

/* What a listing is lent. */
struct listed {
    struct lent files, sources, count;
    uint64_t room_files, room_sources;
};

/* Reads the rooms and lends them; false lends nothing. */
static bool lend_listing(const struct word *argument, struct listed *l)
{
    if (!read_number(argument[0], MAX_ROOM, &l->room_files) || !read_number(argument[1], MAX_ROOM, &l->room_sources))
        return false;
    l->files = lend((size_t)l->room_files * sizeof(uint64_t));
    l->sources = lend((size_t)l->room_sources);
    l->count = lend(sizeof(uint64_t));
    memcpy(record_before, record, sizeof *record);
    return true;
}

/* Prints what a listing answered, and takes back what it was lent. */
static void take_back_listing(uint32_t answer, const struct listed *l)
{
    if (memcmp(record_before, record, sizeof *record) != 0)
        broken("a listing changed the record");
    check_lent(l->count, l->count.len, "bytes beside a listing's count changed");
    print_listing(answer, number_in(l->count), l->files, l->sources);
    give_back(l->files);
    give_back(l->sources);
    give_back(l->count);
}

/* A listing that asks for no direction. */
static bool run_listing(const struct command *c, const struct word *argument)
{
    struct listed l;
    if (!lend_listing(argument, &l))
        return false;
    take_back_listing(c->call.list(record, (uint64_t *)(void *)bytes_of(l.files), (size_t)l.room_files, bytes_of(l.sources), (size_t)l.room_sources,
                                   (uint64_t *)(void *)bytes_of(l.count)),
                      &l);
    return true;
}

/* A listing with the direction that its third word names. */
static bool run_listing_by(const struct command *c, const struct word *argument)
{
    bool lowest = word_is(argument[2], "lowest");
    struct listed l;
    if ((!lowest && !word_is(argument[2], "highest")) || !lend_listing(argument, &l))
        return false;
    take_back_listing(c->call.list_by(record, (uint64_t *)(void *)bytes_of(l.files), (size_t)l.room_files, bytes_of(l.sources),
                                      (size_t)l.room_sources, (uint64_t *)(void *)bytes_of(l.count), lowest ? SC_LOWEST : SC_HIGHEST),
                      &l);
    return true;
}

/* How long the two lists are, as the record keeps it. */
static bool run_counts(const struct command *c, const struct word *argument)
{
    (void)c;
    (void)argument;
    struct lent waiting = lend(sizeof(uint64_t)), offered = lend(sizeof(uint64_t));
    memcpy(record_before, record, sizeof *record);
    sc_record_counts(record, (uint64_t *)(void *)bytes_of(waiting), (uint64_t *)(void *)bytes_of(offered));
    if (memcmp(record_before, record, sizeof *record) != 0)
        broken("a question for the counts changed the record");
    check_lent(waiting, waiting.len, "bytes beside the count of files that wait changed");
    check_lent(offered, offered.len, "bytes beside the count of offered files changed");
    check_held();
    printf("%" PRIu64 " %" PRIu64 "\n", number_in(waiting), number_in(offered));
    give_back(waiting);
    give_back(offered);
    return true;
}

/* An extent as the library hands it out; the handle is 0 in a SCSI body. */
struct extent {
    uint64_t device, offset, length, storage;
    uint32_t handle, state;
};

/* A list of extents, lent as columns. */
struct columns {
    struct lent devices, offsets, handles, lengths, storages, states;
    size_t n;
};

/* What the two kinds of body have of their own. */
struct kind {
    size_t extent_size;
    bool has_handles;
    uint32_t (*check)(const uint8_t *, size_t, uint64_t *);
    uint32_t (*extent)(const uint8_t *, size_t, uint64_t, uint64_t, struct extent *);
    uint32_t (*write)(const struct columns *, struct lent, uint64_t *);
};

static uint32_t scsi_extent(const uint8_t *body, size_t len, uint64_t n, uint64_t i, struct extent *e)
{
    e->handle = 0;
    return sc_layout_extent(body, len, n, i, &e->device, &e->offset, &e->length, &e->storage, &e->state);
}

static uint32_t rdma_extent(const uint8_t *body, size_t len, uint64_t n, uint64_t i, struct extent *e)
{
    return sc_rdma_layout_extent(body, len, n, i, &e->device, &e->offset, &e->handle, &e->length, &e->storage, &e->state);
}

static uint64_t *numbers_of(struct lent column)
{
    return (uint64_t *)(void *)bytes_of(column);
}

static uint32_t *small_numbers_of(struct lent column)
{
    return (uint32_t *)(void *)bytes_of(column);
}

static uint32_t scsi_write(const struct columns *c, struct lent out, uint64_t *place)
{
    return sc_layout_write(bytes_of(c->devices), c->devices.len, numbers_of(c->offsets), c->n, numbers_of(c->lengths), c->n, numbers_of(c->storages), c->n,
                           small_numbers_of(c->states), c->n, bytes_of(out), out.len, place);
}

static uint32_t rdma_write(const struct columns *c, struct lent out, uint64_t *place)
{
    return sc_rdma_layout_write(bytes_of(c->devices), c->devices.len, numbers_of(c->offsets), c->n, small_numbers_of(c->handles), c->n,
                                numbers_of(c->lengths), c->n, numbers_of(c->storages), c->n, small_numbers_of(c->states), c->n, bytes_of(out), out.len,
                                place);
}

static const struct kind scsi = {44, false, sc_layout_check, scsi_extent, scsi_write};
static const struct kind rdma = {48, true, sc_rdma_layout_check, rdma_extent, rdma_write};

/* SCSI lists that are merged before they are written. */
static uint32_t scsi_merge(const struct columns *c, struct lent out, uint64_t *place)
{
    return sc_layout_merge(bytes_of(c->devices), c->devices.len, numbers_of(c->offsets), c->n, numbers_of(c->lengths), c->n, numbers_of(c->storages), c->n,
                           small_numbers_of(c->states), c->n, bytes_of(out), out.len, place);
}

static const struct kind merged = {44, false, sc_layout_check, scsi_extent, scsi_merge};

/* Prints the n extents of an accepted body, as the library hands them out. */
static void print_body(const struct kind *k, struct lent body, uint64_t n)
{
    printf("extents %" PRIu64, n);
    for (uint64_t i = 0; i < n; i++) {
        struct extent e;
        if (k->extent(bytes_of(body), body.len, n, i, &e) != 0)
            broken("a place below the count of a layout body gives no extent");
        printf(" %" PRIu64 ":%" PRIu64 ":%" PRIu64 ":%" PRIu32, e.offset, e.length, e.storage, e.state);
        if (k->has_handles)
            printf(":%" PRIu32, e.handle);
    }
    putchar('\n');
}

static bool run_layout(const struct command *c, const struct word *argument)
{
    struct lent body;
    if (!read_bytes(argument[0], MAX_BODY, &body))
        return false;
    struct lent place = lend(sizeof(uint64_t));
    uint32_t answer = c->call.kind->check(bytes_of(body), body.len, (uint64_t *)(void *)bytes_of(place));
    check_lent(place, place.len, "bytes beside a layout check's place changed");
    check_held();
    if (answer == 0)
        print_body(c->call.kind, body, number_in(place));
    else
        printf("refused %" PRIu32 " at %" PRIu64 "\n", answer, number_in(place));
    take_back_bytes(argument[0], body, "bytes in or beside the layout body changed");
    give_back(place);
    return true;
}

/* The columns of extents that stand one after the other, read by the library as if a count stood before them. */
static struct columns columns_of(const struct kind *k, struct lent extents)
{
    size_t n = extents.len / k->extent_size;
    struct columns c = {lend(16 * n), lend(8 * n), lend(4 * n), lend(8 * n), lend(8 * n), lend(4 * n), n};
    struct lent body = lend(4 + extents.len);
    memcpy(bytes_of(body) + 4, bytes_of(extents), extents.len);
    for (size_t i = 0; i < n; i++) {
        struct extent e;
        if (k->extent(bytes_of(body), body.len, n, i, &e) != 0)
            broken("an extent that is there is not given");
        memcpy(bytes_of(c.devices) + 16 * i, bytes_of(body) + e.device, 16);
        numbers_of(c.offsets)[i] = e.offset;
        small_numbers_of(c.handles)[i] = e.handle;
        numbers_of(c.lengths)[i] = e.length;
        numbers_of(c.storages)[i] = e.storage;
        small_numbers_of(c.states)[i] = e.state;
    }
    give_back(body);
    return c;
}

/* Takes columns back: each number has to be that of the extents still. */
static void give_back_columns(const struct kind *k, struct lent extents, const struct columns *c)
{
    const struct columns again = columns_of(k, extents);
    const struct lent all[] = {c->devices, c->offsets, c->handles, c->lengths, c->storages, c->states};
    const struct lent kept[] = {again.devices, again.offsets, again.handles, again.lengths, again.storages, again.states};
    for (size_t i = 0; i < sizeof all / sizeof all[0]; i++) {
        check_lent(all[i], all[i].len, "bytes beside a column changed");
        if (memcmp(bytes_of(all[i]), bytes_of(kept[i]), all[i].len) != 0)
            broken("a number of a column changed");
        give_back(all[i]);
        give_back(kept[i]);
    }
}

/* Reads the bytes of whole extents of a kind; false lends nothing. */
static bool read_extents(const struct kind *k, struct word w, struct lent *extents)
{
    if (!read_bytes(w, MAX_LIST, extents))
        return false;
    if (extents->len % k->extent_size == 0)
        return true;
    give_back(*extents);
    return false;
}

/* Prints the body of `place` extents that was written, or the refusal, and takes the buffer back. */
static void print_written(const struct kind *k, uint32_t answer, uint64_t place, struct lent out)
{
    size_t written = answer == 0 ? 4 + k->extent_size * (size_t)place : 0;
    check_lent(out, written, "bytes past the written body changed");
    check_held();
    if (answer == 0) {
        printf("0 ");
        print_hex(bytes_of(out), written);
        putchar('\n');
    } else {
        printf("refused %" PRIu32 " at %" PRIu64 "\n", answer, place);
    }
    give_back(out);
}

static bool run_write(const struct command *c, const struct word *argument)
{
    const struct kind *k = c->call.kind;
    uint64_t room, place;
    struct lent extents;
    if (!read_number(argument[0], MAX_ROOM, &room) || !read_extents(k, argument[1], &extents))
        return false;
    struct columns list = columns_of(k, extents);
    struct lent out = lend((size_t)room);
    uint32_t answer = k->write(&list, out, &place);
    give_back_columns(k, extents, &list);
    print_written(k, answer, place, out);
    give_back(extents);
    return true;
}

/* A LAYOUTCOMMIT: the block size, the room for the new body, the commit list and the extents. */
static bool run_commit(const struct command *c, const struct word *argument)
{
    const struct kind *k = c->call.kind;
    uint64_t block, room;
    struct lent commits, extents;
    if (!read_number(argument[0], UINT64_MAX, &block) || !read_number(argument[1], MAX_ROOM, &room) || !read_bytes(argument[2], MAX_BODY, &commits))
        return false;
    if (!read_extents(k, argument[3], &extents)) {
        give_back(commits);
        return false;
    }
    struct columns list = columns_of(k, extents);
    struct lent out = lend((size_t)room), place = lend(sizeof(uint64_t));
    uint32_t answer = sc_layout_commit(bytes_of(commits), commits.len, block, bytes_of(list.devices), list.devices.len, numbers_of(list.offsets), list.n,
                                       numbers_of(list.lengths), list.n, numbers_of(list.storages), list.n, small_numbers_of(list.states), list.n,
                                       bytes_of(out), out.len, numbers_of(place));
    take_back_bytes(argument[2], commits, "bytes in or beside the commit list changed");
    check_lent(place, place.len, "bytes beside a commit's place changed");
    give_back_columns(k, extents, &list);
    print_written(k, answer, number_in(place), out);
    give_back(place);
    give_back(extents);
    return true;
}

static bool read_node(struct word w, uint32_t *node)
{
    uint64_t n;
    if (!read_number(w, UINT32_MAX, &n))
        return false;
    *node = (uint32_t)n;
    return true;
}

static bool run_on_node(const struct command *c, const struct word *argument)
{
    uint32_t node;
    if (!read_node(argument[0], &node))
        return false;
    print_answer(c->call.node(epochs, node));
    return true;
}

static bool run_may(const struct command *c, const struct word *argument)
{
    (void)c;
    uint32_t node;
    if (!read_node(argument[0], &node))
        return false;
    memcpy(epochs_before, epochs, sizeof *epochs);
    uint32_t answer = sc_epochs_may_reclaim(epochs, node);
    if (memcmp(epochs_before, epochs, sizeof *epochs) != 0)
        broken("may changed the epochs");
    check_held();
    if (answer <= 1)
        puts(answer == 1 ? "yes" : "no");
    else
        printf("%" PRIu32 "\n", answer);
    return true;
}

static bool run_epochs(const struct command *c, const struct word *argument)
{
    (void)c;
    (void)argument;
    printf("%" PRIu64 " %" PRIu64, epochs->current, epochs->recovery);
    printf(" %08" PRIx32 " %08" PRIx32 " %08" PRIx32 "\n", epochs->members, epochs->need, epochs->enforcing);
    return true;
}

static bool run_fresh(const struct command *c, const struct word *argument)
{
    (void)c;
    (void)argument;
    start_anew();
    puts("0");
    return true;
}

/* The same with a record of the edition that is named: `old` is the only one. */
static bool run_fresh_edition(const struct command *c, const struct word *argument)
{
    (void)c;
    if (!word_is(argument[0], "old"))
        return false;
    start_anew();
    sc_record_fresh_old(record);
    check_held();
    puts("0");
    return true;
}

/* ---- The table of commands: name, number of arguments, how it is run, and the call where several are run alike ---- */

static const struct command commands[] = {
    {"register", 2, run_on_devices, {.devices = sc_record_register}},
    {"open", 2, run_on_client, {.client = sc_record_open}},
    {"reclaim", 2, run_on_client, {.client = sc_record_reclaim}},
    {"close", 2, run_on_client, {.client = sc_record_close}},
    {"repaired", 1, run_on_file, {.file = sc_record_repaired}},
    {"forget", 1, run_on_file, {.file = sc_record_forget}},
    {"addproxy", 2, run_on_devices, {.devices = sc_record_add_proxy}},
    {"removeproxy", 1, run_on_file, {.file = sc_record_remove_proxy}},
    {"stateid", 3, run_stateid, {NULL}},
    {"end", 0, run_on_record, {.record = sc_record_end_grace}},
    {"restart", 0, run_on_record, {.record = sc_record_restart}},
    {"layoutreturn", 4, run_layoutreturn, {NULL}},
    {"request", 1, run_request, {NULL}},
    {"totals", 0, run_totals, {NULL}},
    {"resilver", 2, run_listing, {.list = sc_record_resilver}},
    {"offered", 2, run_listing, {.list = sc_record_offered}},
    {"resilver", 3, run_listing_by, {.list_by = sc_record_resilver_by}},
    {"offered", 3, run_listing_by, {.list_by = sc_record_offered_by}},
    {"counts", 0, run_counts, {NULL}},
    {"layout", 1, run_layout, {.kind = &scsi}},
    {"rdma", 1, run_layout, {.kind = &rdma}},
    {"write", 2, run_write, {.kind = &scsi}},
    {"rdmawrite", 2, run_write, {.kind = &rdma}},
    {"merge", 2, run_write, {.kind = &merged}},
    {"commit", 4, run_commit, {.kind = &scsi}},
    {"join", 1, run_on_node, {.node = sc_epochs_join}},
    {"leave", 1, run_on_node, {.node = sc_epochs_leave}},
    {"start", 1, run_on_node, {.node = sc_epochs_start}},
    {"enforce", 1, run_on_node, {.node = sc_epochs_enforce}},
    {"finish", 1, run_on_node, {.node = sc_epochs_finish}},
    {"stop", 1, run_on_node, {.node = sc_epochs_stop_enforcing}},
    {"may", 1, run_may, {NULL}},
    {"epochs", 0, run_epochs, {NULL}},
    {"fresh", 0, run_fresh, {NULL}},
    {"fresh", 1, run_fresh_edition, {NULL}},
};

static const struct command *find_command(struct word name, size_t arguments)
{
    for (size_t i = 0; i < sizeof commands / sizeof commands[0]; i++)
        if (word_is(name, commands[i].name) && commands[i].arguments == arguments)
            return &commands[i];
    return NULL;
}

/* ---- Lines ---- */

struct line {
    uint8_t text[MAX_LINE];
    size_t len;
    bool too_long;
};

/* Reads the next line, however long; false at the end of the input. */
static bool read_line(FILE *in, struct line *line)
{
    int c;
    line->len = 0;
    line->too_long = false;
    while ((c = getc(in)) != EOF && c != '\n') {
        if (line->len < MAX_LINE)
            line->text[line->len++] = (uint8_t)c;
        else
            line->too_long = true;
    }
    return c == '\n' || line->len > 0;
}

/* Runs a line that has words; false where it can't be read. */
static bool run_words(const struct word *words, size_t count)
{
    const struct command *c = find_command(words[0], count - 1);
    return c != NULL && c->run(c, words + 1);
}

static void run_line(const struct line *line)
{
    struct word words[MAX_WORDS + 1];
    size_t count = split(line->text, line->len, words);
    bool skipped = !line->too_long && (count == 0 || words[0].text[0] == '#');
    if (!skipped && (line->too_long || !run_words(words, count)))
        printf("? %" PRIu64 "\n", line_number);
}

int main(int argc, char **argv)
{
    static struct line line;
    (void)argv;
    if (argc > 1) {
        fputs("usage: stellcircle-replay < SCRIPT\n", stderr);
        return EXIT_USAGE;
    }
    set_up();
    start_anew();
    for (line_number = 1; read_line(stdin, &line); line_number++)
        run_line(&line);
    if (ferror(stdin))
        trouble("standard input can't be read");
    if (ferror(stdout) || fflush(stdout) != 0)
        trouble("standard output can't be written");
    clean_up();
    return 0;
}
