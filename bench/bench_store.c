/* Stores and replays on both sides. */
#include "bench.h"

/* The store that is measured: the last 64 of these reports, so that the lowest number stands in its midst. */
enum { FIRST = 16, NEXT = 100, TAKEN = NEXT - FIRST - FIXGW_STORE_PLACES };

ALIGNED uint8_t full_store[FIXGW_STORE];
struct bytes gap_fill, gap_fill_of_all;

static const struct fixgw_session storing = RECORD(2, 2, FIXGW_ACTIVE, 2, NEXT, 30, 0);
static const struct fixgw_session repeating = RECORD(2, 2, FIXGW_ACTIVE, 2, NEXT, 30, 0, 70, 99);
static const struct fixgw_session filling = RECORD(2, 2, FIXGW_ACTIVE, 2, NEXT, 30, 0, 1, 99);
static struct plain_session plain_storing, plain_repeating, plain_filling;

#define GAP_FILL(next) "35=4|49=GW|56=MM|34=1|43=Y|52=20240102-09:30:00.000000|122=20240102-09:30:00.000000|123=Y|36=" next "|"

void make_stores(void)
{
    make_frame(&gap_fill, GAP_FILL("36"));
    make_frame(&gap_fill_of_all, GAP_FILL("100"));
    fill_store(full_store, FIRST, NEXT - 1);
    plain_storing = plain_of(&storing);
    plain_repeating = plain_of(&repeating);
    plain_filling = plain_of(&filling);
}

/* ---- What is measured -------------------------------------------------------------------------------------------- */

/* The place of the lowest number, which the report takes, as it was. */
static void set_back_place(uint8_t store[FIXGW_STORE])
{
    memcpy(store + FIXGW_STORE_PLACE * TAKEN, full_store + FIXGW_STORE_PLACE * TAKEN, FIXGW_STORE_PLACE);
}

void report_full_ours(void)
{
    set_back_place(our_store);
    sink += report_on(set_back(&storing), our_store);
}

void report_full_plain(void)
{
    set_back_place(plain_store);
    sink += plain_report_on(set_back_plain(&plain_storing), plain_store);
}

static ALIGNED uint8_t our_reply[FIXGW_LEAST_REPLY_ROOM];

static uint64_t replay_ours(const struct fixgw_session *session)
{
    uint64_t out[1];
    uint32_t refusal = fixgw_session_replay(set_back(session), CALL_TIME, our_reply, sizeof our_reply, our_store,
                                            sizeof our_store, out);
    sink += refusal + out[0];
    return out[0];
}

static void replay_plain(const struct plain_session *session)
{
    static ALIGNED uint8_t reply[FIXGW_LEAST_REPLY_ROOM];
    uint64_t out[1];
    uint32_t refusal = plain_replay(set_back_plain(session), CALL_TIME, reply, sizeof reply, plain_store,
                                    sizeof plain_store, out);
    sink += refusal + out[0];
}

void replay_report_ours(void)
{
    replay_ours(&repeating);
}

void replay_report_plain(void)
{
    replay_plain(&plain_repeating);
}

void replay_fill_ours(void)
{
    replay_ours(&filling);
}

void replay_fill_plain(void)
{
    replay_plain(&plain_filling);
}

/* ---- Both sides answer alike ------------------------------------------------------------------------------------- */

/* Whether a report went out again, and not a gap fill. */
static bool check_replay(const char *what, const struct fixgw_session *session, uint64_t time, size_t room, size_t stored)
{
    uint64_t out[1], plain_out[1], body[2];
    struct pair pair = pair_on(session, what);
    uint32_t refusal = fixgw_session_replay(&pair.ours, time, pair.our_reply, room, our_store, stored, out);
    uint32_t plain_refusal = plain_replay(&pair.plain, time, pair.plain_reply, room, plain_store, stored, plain_out);
    insist(out[0] == plain_out[0], what);
    check_pair(&pair, refusal, plain_refusal, out[0]);
    return fixgw_body(pair.our_reply, out[0], body) == FIXGW_OK && pair.our_reply[body[0] + 4] == 'E';
}

void check_replays(const struct fixgw_session *session)
{
    enum { ROOM = FIXGW_LEAST_REPLY_ROOM };
    check_replay("a replay", session, CALL_TIME, ROOM, FIXGW_STORE);
    check_replay("a replay at the end of time", session, FIXGW_END_OF_TIME - 1, ROOM, FIXGW_STORE);
    check_replay("a replay past all time", session, FIXGW_END_OF_TIME, ROOM - 1, FIXGW_STORE);
    check_replay("a replay without room", session, CALL_TIME, ROOM - 1, FIXGW_STORE);
    check_replay("a replay with a short store", session, FIXGW_END_OF_TIME, 0, FIXGW_STORE - 1);
}

/* What stands in a place, read by a replay of its number and of the one before it, and by a report. */
static const struct fixgw_session asked_for = RECORD(2, 2, FIXGW_ACTIVE, 2, 9, 30, 0, 2, 2);
static const struct fixgw_session asked_before = RECORD(2, 2, FIXGW_ACTIVE, 2, 9, 30, 0, 1, 3);
static size_t kept, empty;

static void check_place(const uint8_t *bytes, size_t len, size_t at)
{
    static uint8_t store[FIXGW_STORE];
    memset(store, 0, sizeof store);
    memcpy(store + FIXGW_STORE_PLACE * at, bytes, len);
    lend(store);
    bool is_kept = check_replay("a place", &asked_for, CALL_TIME, FIXGW_LEAST_REPLY_ROOM, FIXGW_STORE);
    check_replay("a place behind a number", &asked_before, CALL_TIME, FIXGW_LEAST_REPLY_ROOM, FIXGW_STORE);
    if (at == 0)
        check_report_on("a report into a place", &active);
    kept += is_kept;
    empty += !is_kept;
}

static void check_body(const char *text)
{
    static struct bytes frame;
    make_frame(&frame, text);
    if (frame.len <= FIXGW_STORE_PLACE)
        check_place(frame.at, frame.len, 0);
}

/* One byte changed in many ways, the sum mended or not; cut, moved, with a byte behind it. */
static void check_bytes(void)
{
    static const uint8_t others[] = { 0, 1, '0', '1', '5', '6', '9', '=', '.', '|', 'A', 'Y', 255 };
    uint8_t place[FIXGW_STORE_PLACE] = { 0 };
    for (size_t i = 0; i < report.len; i++)
        for (size_t j = 0; j < sizeof others; j++) {
            memcpy(place, report.at, report.len);
            place[i] = others[j];
            check_place(place, sizeof place, 63);
            mend_sum(place, report.len);
            check_place(place, sizeof place, 0);
        }
    for (size_t i = 0; i < report.len; i++)
        check_place(report.at, i, 0);
    for (size_t i = report.len; i < sizeof place; i++) {
        memset(place, 0, sizeof place);
        memcpy(place, report.at, report.len);
        place[i] = 1;
        check_place(place, sizeof place, 7);
    }
    memset(place, 0, sizeof place);
    memcpy(place + 1, report.at, report.len);
    check_place(place, sizeof place, 0);
}

#define STAMPED(time) "35=AE|49=GW|56=MM|34=2|52=" time "|" REPORT_TRADE REPORT_SIDE
#define HEADED(header) "35=AE|" header "|" REPORT_TRADE REPORT_SIDE

static const char *const places[] = {
    STAMPED("19700101-00:00:00.000000"), STAMPED("19691231-23:59:59.999999"), STAMPED("99991231-23:59:59.999999"),
    STAMPED("20240102-09:30:60.000000"), STAMPED("20240102-09:30:00.000"), STAMPED("20240102-09:30:00"),
    STAMPED("20230229-09:30:00.000000"), STAMPED("20240229-09:30:00.000000"), STAMPED("18990102-09:30:00.000000"),
    HEADED("49=GW|56=MM|34=02|52=20240102-09:30:00.000000"), HEADED("49=GW|56=MM|34=0|52=20240102-09:30:00.000000"),
    HEADED("49=GW|56=MM|34=3|52=20240102-09:30:00.000000"), HEADED("49=GX|56=MM|34=2|52=20240102-09:30:00.000000"),
    HEADED("49=GW|56=MX|34=2|52=20240102-09:30:00.000000"), HEADED("56=MM|49=GW|34=2|52=20240102-09:30:00.000000"),
    HEADED("49=GW|56=MM|34=999999990|52=20240102-09:30:00.000000"),
    HEADED("49=GW|56=MM|34=999999991|52=20240102-09:30:00.000000"),
    HEADED("49=GW|56=MM|34=2|43=Y|52=20240102-09:30:00.000000|122=20240102-09:30:00.000000"),
    HEADED("49=GW|56=MM|34=2|52=20240102-09:30:00.000000|1128=9"), "35=AE|49=GW|56=MM|34=2|52=20240102-09:30:00.000000|",
};

void check_places(void)
{
    each_report_body(check_body);
    for (size_t i = 0; i < sizeof places / sizeof places[0]; i++)
        check_body(places[i]);
    check_bytes();
    insist(kept > 0 && empty > 0, "the places of a store");
}

/* The gap fill that is measured, on the store that is lent. */
static void check_gap_fill(const struct bytes *message)
{
    insist(!check_replay("the gap fill", &filling, CALL_TIME, FIXGW_LEAST_REPLY_ROOM, FIXGW_STORE), "the gap fill");
    insist(replay_ours(&filling) == message->len && memcmp(our_reply, message->at, message->len) == 0, "the gap fill");
}

/* The same number twice, in places that are full and in one that is not, and the calls that are measured. */
void check_stores(void)
{
    static uint8_t store[FIXGW_STORE];
    for (size_t i = 0; i < FIXGW_STORE_PLACES; i++) {
        memcpy(store, full_store, sizeof store);
        memcpy(store + FIXGW_STORE_PLACE * i, full_store + FIXGW_STORE_PLACE * 5, FIXGW_STORE_PLACE);
        lend(store);
        check_report_on("a report into a store with one number twice", &storing);
        check_replays(&repeating);
        store[FIXGW_STORE_PLACE * i] = 0;
        lend(store);
        check_report_on("a report into a store with a damaged place", &storing);
        check_replays(&filling);
    }
    lend(full_store);
    check_report_on("the report into a full store", &storing);
    insist(memcmp(our_store + FIXGW_STORE_PLACE * TAKEN, full_store + FIXGW_STORE_PLACE * TAKEN, FIXGW_STORE_PLACE) != 0,
           "the place of the lowest number");
    insist(check_replay("the report again", &repeating, CALL_TIME, FIXGW_LEAST_REPLY_ROOM, FIXGW_STORE), "the report");
    check_gap_fill(&gap_fill);
    lend(no_reports);
    check_gap_fill(&gap_fill_of_all);
}
