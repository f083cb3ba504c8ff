/* The jobs of bench/record.c for one version of the record, of type R, whose calls are P(record_open) and so on. A job has a state that is put back
 * before each run; a run is its calls, each answer added to bench_sum[FORM]. */
static R P(state), P(held);

/* FILES files with so many mirrors and clients' intents each; afterwards restarted, and grace ended, as asked */
static void P(mirrored)(int devices, int intents, int restarted, int ended)
{
    P(record_fresh)(&P(state));
    for (int k = 0; k < FILES; k++)
        P(record_register)(&P(state), number(k), mirrors, 16 * (size_t)devices);
    for (int c = 1; c <= intents; c++)
        for (int k = 0; k < FILES; k++)
            P(record_open)(&P(state), number(k), (uint64_t)c);
    if (restarted)
        P(record_restart)(&P(state));
    if (ended)
        P(record_end_grace)(&P(state));
}

static void P(filled)(int intents, int restarted, int ended) { P(mirrored)(2, intents, restarted, ended); }

static void P(empty)(void) { P(record_fresh)(&P(state)); }
static void P(idle)(void) { P(filled)(0, 0, 0); }
static void P(full)(void) { P(filled)(8, 0, 0); }
static void P(full_4)(void) { P(mirrored)(4, 8, 0, 0); }
static void P(grace)(void) { P(filled)(8, 1, 0); }
static void P(grace_4)(void) { P(mirrored)(4, 8, 1, 0); }
static void P(lost)(void) { P(filled)(8, 1, 1); }

/* the first so many clients of each file have a stateid */
static void P(stateids)(int clients)
{
    uint8_t name[12];
    P(filled)(8, 0, 0);
    for (int k = 0; k < FILES; k++)
        for (int c = 1; c <= clients; c++)
            P(record_set_up_stateid)(&P(state), number(k), (uint64_t)c, other(name, number(k), (uint64_t)c), sizeof name);
}

static void P(all_stateids)(void) { P(stateids)(8); }
static void P(all_but_one)(void) { P(stateids)(7); }

/* in grace, and every second client has reclaimed */
static void P(half)(void)
{
    P(filled)(8, 1, 0);
    for (int k = 0; k < FILES; k++)
        for (int c = 2; c <= 8; c += 2)
            P(record_reclaim)(&P(state), number(k), (uint64_t)c);
}

/* a LAYOUTRETURN in the record, with every place lent for its totals */
static uint64_t P(returned)(int k, const uint8_t *request, size_t len)
{
    uint64_t status = P(record_layoutreturn)(&P(held), file[k], client[k], request, len, reply, sizeof reply, bytes_read, SC_PLACES, bytes_written, SC_PLACES, &read_over, &written_over);
    return status + bytes_read[3] + bytes_written[0] + bytes_read[SC_PROXY] + read_over + written_over;
}

/* the same with the client's stateid, which is put into the request and taken out of it again; the reply has the raised one */
static uint64_t P(returned_by)(int k, uint8_t *request, size_t len)
{
    other(request + 36, file[k], client[k]);
    uint64_t answer = P(returned)(k, request, len) + reply[7] + reply[11];
    memset(request + 36, 0, 12);
    return answer;
}

static uint32_t P(set_up_one)(uint64_t number)
{
    uint8_t name[12];
    return P(record_set_up_stateid)(&P(held), number, 8, other(name, number, 8), sizeof name);
}

/* calls that leave the record as it is come MANY times, on any file and client; calls that change it once on each file, in any order */
#define ANY for (int k = 0; k < MANY; k++) bench_sum[FORM] +=
#define EACH for (int k = 0; k < FILES; k++) bench_sum[FORM] +=
static void P(open_held)(void) { ANY P(record_open)(&P(held), file[k], client[k]); }
static void P(open_ninth)(void) { ANY P(record_open)(&P(held), file[k], 9); }
static void P(close_open)(void) { ANY P(record_close)(&P(held), file[k], client[k]) + P(record_open)(&P(held), file[k], client[k]); }
static void P(reclaim)(void) { ANY P(record_reclaim)(&P(held), file[k], client[k]); }
static void P(repaired)(void) { EACH P(record_repaired)(&P(held), each[k]); }
static void P(report_1)(void) { ANY P(returned)(k, one, one_len) + reply[7]; }
static void P(report_20)(void) { ANY P(returned)(k, twenty, twenty_len) + reply[7]; }
static void P(statistics_1)(void) { ANY P(returned)(k, live, live_len) + reply[7]; }
static void P(statistics_4)(void) { ANY P(returned)(k, four, four_len) + reply[7]; }
static void P(statistics_8)(void) { ANY P(returned)(k, eight, eight_len) + reply[7]; }
static void P(handed_on)(void) { ANY P(returned)(k, bulk, sizeof bulk); }
static void P(handed_on_current)(void) { ANY P(returned)(k, current, sizeof current); }
static void P(set_up)(void) { EACH P(set_up_one)(each[k]); }
static void P(ordinary_1)(void) { ANY P(returned_by)(k, one, one_len); }
static void P(ordinary_20)(void) { ANY P(returned_by)(k, twenty, twenty_len); }
static void P(ordinary_none)(void) { ANY P(returned_by)(k, one, one_len); }
static void P(proxy)(void) { ANY P(record_add_proxy)(&P(held), file[k], proxy, 16) + P(record_remove_proxy)(&P(held), file[k]); }
static void P(enter)(void) { EACH P(record_register)(&P(held), each[k], mirrors, 32); }
static void P(forget)(void) { EACH P(record_forget)(&P(held), each[k]); }
static void P(restart)(void) { EACH P(record_restart)(&P(held)); }
static void P(end)(void) { bench_sum[FORM] += P(record_end_grace)(&P(held)); }
static void P(resilver)(void) { EACH P(record_resilver_by)(&P(held), files, FILES, sources, FILES, &count, SC_LOWEST) + count + files[63] + sources[5]; }
static void P(offered)(void) { EACH P(record_offered_by)(&P(held), files, FILES, sources, FILES, &count, SC_LOWEST) + count + files[63] + sources[5]; }
static void P(counts)(void) { for (int k = 0; k < MANY; k++) { P(record_counts)(&P(held), &waiting, &ready); bench_sum[FORM] += waiting + ready; } }
static void P(resilver_highest)(void) { EACH P(record_resilver)(&P(held), files, FILES, sources, FILES, &count) + count + files[63] + sources[5]; }
static void P(offered_highest)(void) { EACH P(record_offered)(&P(held), files, FILES, sources, FILES, &count) + count + files[63] + sources[5]; }
#undef ANY
#undef EACH
