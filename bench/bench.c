/* The cost of the library's calls, each beside plain C that does the same.
   One line a section: NUMBER|WHAT|BYTES|MESSAGES|SIDE|REPEATS|NANOSECONDS|SERIES. */
#include "bench.h"

enum {
    TURNS = 5,
    MARK_OF_COUNTER = 0x7fe00000            /* close() of this begins a section for a counting emulator, + n ends it */
};

uint64_t sink;

/* ---- What is read ------------------------------------------------------------------------------------------------ */

struct bytes report;
static struct bytes heartbeat, request, greatest, test_request, noise, marks, torn, stream, greatest_stream;

static void add(struct bytes *to, const char *text)
{
    for (; *text; text++)
        to->at[to->len++] = *text == '|' ? 1 : (uint8_t)*text;
}

static void add_number(struct bytes *to, size_t number)
{
    if (number >= 10)
        add_number(to, number / 10);
    to->at[to->len++] = (uint8_t)('0' + number % 10);
}

void make_frame(struct bytes *frame, const char *body)
{
    uint32_t sum = 0;
    frame->len = 0;
    add(frame, "8=FIXT.1.1|9=");
    add_number(frame, strlen(body));
    add(frame, "|");
    frame->body = frame->len;
    frame->body_len = strlen(body);
    add(frame, body);
    for (size_t i = 0; i < frame->len; i++)
        sum += frame->at[i];
    add(frame, "10=");
    add_number(frame, sum % 256 / 100);
    add_number(frame, sum % 256 / 10 % 10);
    add_number(frame, sum % 256 % 10);
    add(frame, "|");
}

/* A Heartbeat whose body is filled up to 2,048 bytes with fields that no dictionary has. */
static void make_greatest(void)
{
    static char body[2049];
    static const char filling[] = "20001=abcdefghijklmnopqrstuvwxyz|";
    size_t at = strlen(HEADER("0"));
    memcpy(body, HEADER("0"), at);
    while (2048 - at >= 2 * (sizeof filling - 1)) {
        memcpy(body + at, filling, sizeof filling - 1);
        at += sizeof filling - 1;
    }
    memcpy(body + at, "20001=", 6);
    memset(body + at + 6, 'x', 2048 - at - 7);
    body[2047] = '|';
    make_frame(&greatest, body);
}

static void make_repeated(struct bytes *bytes, const char *text)
{
    while (bytes->len + strlen(text) <= LONG)
        add(bytes, text);
}

static void make_stream(struct bytes *to, const struct bytes *frame, size_t count)
{
    to->each = frame->len;
    for (; count > 0; count--, to->len += frame->len)
        memcpy(to->at + to->len, frame->at, frame->len);
}

static void make_all(void)
{
    make_frame(&heartbeat, HEADER("0"));
    make_frame(&test_request, HEADER("1") "112=ARE YOU THERE|");
    make_frame(&request, HEADER("AD") "568=TR-20240102-000001|569=0|263=0|828=0|453=2|448=TRADER-0000007|447=D|452=12|"
               "448=MEMBERFIRM|447=D|452=1|22=8|48=GB00BH4HKS39|580=2|75=20231228|75=20231229|58=End of year|");
    make_greatest();
    make_frame(&report, REPORT_HEADER REPORT_TRADE REPORT_SIDE REPORT_PARTIES);
    make_repeated(&noise, "0123456789 abcdefghijklmnopqrstuvwxyz|=.,-");
    make_repeated(&marks, "8=FIXT.1.1|9=");
    make_repeated(&torn, "8=FIXT.1.1|9=2048|35=0|49=MM|");
    make_stream(&stream, &request, 100);
    make_stream(&greatest_stream, &greatest, 10);
}

/* ---- What is measured -------------------------------------------------------------------------------------------- */

enum kind { NOTHING, READ, VERDICT, STEP, TICK, REPORT, REPORT_VALUES, REPORT_FULL, REPLAY_REPORT, REPLAY_FILL, CALL, FIELD };
enum side { OURS, PLAIN };

struct row {
    const char *what;
    enum kind kind;
    const struct bytes *bytes;
    uint64_t repeats;
    run *ours, *plain;                      /* of a CALL, and of a FIELD on the body */
    const uint8_t *store;                   /* what is lent */
    const char *series;                     /* the rows with ever more bytes that it is one of */
    size_t len, messages;                   /* so many bytes, or messages of a stream; both 0: all, which is one message */
};

#define ON(what, kind, bytes, repeats) { what, kind, &bytes, repeats, 0, 0, no_reports, "", 0, 0 }
#define FULL(what, kind, bytes, repeats) { what, kind, &bytes, repeats, 0, 0, full_store, "", 0, 0 }
#define BY(what, name, bytes, repeats) { what, CALL, &bytes, repeats, name##_ours, name##_plain, no_reports, "", 0, 0 }
#define STREAM(what, name, bytes, series, messages, repeats) \
    { what, CALL, &bytes, repeats, name##_ours, name##_plain, no_reports, series, 0, messages }
#define LENGTH(what, kind, bytes, series, len, repeats) { what, kind, &bytes, repeats, 0, 0, no_reports, series, len, 0 }
#define PIECE(what, len, repeats) { what, CALL, &noise, repeats, piece_ours, piece_plain, no_reports, "piece", len, 0 }
#define FIELDS(what, bytes, repeats) \
    { what, FIELD, &bytes, repeats, first_field_ours, first_field_plain, no_reports, "first field", 0, 0 }

static const struct row rows[] = {
    ON("nothing", NOTHING, heartbeat, 1000),
    ON("read, Heartbeat", READ, heartbeat, 2000),
    ON("read, AD with two parties", READ, request, 2000),
    ON("read, body of 2,048", READ, greatest, 500),
    BY("sum, Heartbeat", sum, heartbeat, 2000),
    BY("sum, AD with two parties", sum, request, 2000),
    BY("sum, body of 2,048", sum, greatest, 500),
    BY("longest frame byte by byte, read after each", stream, greatest, 2),
    BY("longest frame byte by byte, read behind a byte 1", sparing, greatest, 10),
    ON("verdict, Heartbeat", VERDICT, heartbeat, 2000),
    ON("verdict, AD with two parties", VERDICT, request, 2000),
    ON("verdict, body of 2,048", VERDICT, greatest, 500),
    ON("step, Heartbeat", STEP, heartbeat, 2000),
    ON("step, AD with two parties", STEP, request, 2000),
    ON("step, body of 2,048", STEP, greatest, 500),
    ON("step, Test Request and its answer", STEP, test_request, 2000),
    BY("step, Logon and its answer", waiting_step, logon, 2000),
    BY("step, Logon with 141=Y and its answer", waiting_step, reset_logon, 200),
    BY("step, Logout and its answer", active_step, logout, 2000),
    BY("step, Heartbeat with a finding: Reject out", active_step, unclean, 2000),
    BY("step, Heartbeat too high: Resend Request out", active_step, too_high, 2000),
    BY("step, Heartbeat too high in a gap: nothing out", gap_step, too_high, 2000),
    BY("step, Heartbeat too low, a duplicate: nothing out", active_step, duplicate, 2000),
    ON("tick, Heartbeat out", TICK, heartbeat, 2000),
    BY("logout, Logout out", logout, logout_out, 2000),
    BY("test request, Test Request out", test_request, test_request_out, 2000),
    BY("write, Heartbeat", message, heartbeat_out, 2000),
    BY("write, Logon", message, logon_out, 2000),
    BY("write, Reject with all values", message, reject_out, 2000),
    ON("verdict, AE with two parties", VERDICT, report, 2000),
    ON("report, AE with two parties", REPORT, report, 2000),
    ON("report-values, AE with two parties", REPORT_VALUES, report, 2000),
    FULL("report, the same into a full store", REPORT_FULL, report, 50),
    FULL("replay, that report, full store", REPLAY_REPORT, report, 500),
    FULL("replay, gap fill, full store", REPLAY_FILL, gap_fill, 500),
    ON("replay, gap fill, empty store", REPLAY_FILL, gap_fill_of_all, 500),
    LENGTH("read, noise of 2,000", READ, noise, "noise", 2000, 500),
    LENGTH("read, noise of 20,000", READ, noise, "noise", 20000, 50),
    LENGTH("read, noise of 200,000", READ, noise, "noise", 200000, 5),
    LENGTH("read, marks of 2,000", READ, marks, "marks", 2000, 500),
    LENGTH("read, marks of 20,000", READ, marks, "marks", 20000, 50),
    LENGTH("read, marks of 200,000", READ, marks, "marks", 200000, 5),
    LENGTH("read, torn messages of 2,000", READ, torn, "torn", 2000, 500),
    LENGTH("read, torn messages of 20,000", READ, torn, "torn", 20000, 50),
    LENGTH("read, torn messages of 200,000", READ, torn, "torn", 200000, 5),
    STREAM("stream byte by byte, 1 AD", stream, stream, "AD", 1, 50),
    STREAM("stream byte by byte, 10 AD", stream, stream, "AD", 10, 5),
    STREAM("stream byte by byte, 100 AD", stream, stream, "AD", 100, 1),
    STREAM("stream, read behind a byte 1, 1 AD", sparing, stream, "sparing AD", 1, 100),
    STREAM("stream, read behind a byte 1, 10 AD", sparing, stream, "sparing AD", 10, 10),
    STREAM("stream, read behind a byte 1, 100 AD", sparing, stream, "sparing AD", 100, 1),
    STREAM("longest frames byte by byte, 1", stream, greatest_stream, "longest", 1, 2),
    STREAM("longest frames byte by byte, 10", stream, greatest_stream, "longest", 10, 1),
    STREAM("longest frames, read behind a byte 1, 1", sparing, greatest_stream, "sparing longest", 1, 10),
    STREAM("longest frames, read behind a byte 1, 10", sparing, greatest_stream, "sparing longest", 10, 1),
    PIECE("put and drop, 20", 20, 2000),
    PIECE("put and drop, 200", 200, 2000),
    PIECE("put and drop, 2,000", 2000, 500),
    LENGTH("verdict, 2 fields more", VERDICT, few_fields, "verdict", 0, 2000),
    LENGTH("verdict, 20 fields more", VERDICT, some_fields, "verdict", 0, 500),
    LENGTH("verdict, 200 fields more", VERDICT, many_fields, "verdict", 0, 100),
    FIELDS("first field, behind 2 more", few_fields, 2000),
    FIELDS("first field, behind 20 more", some_fields, 500),
    FIELDS("first field, behind 200 more", many_fields, 100),
};

enum { ROWS = sizeof rows / sizeof rows[0] };

static size_t length_of(const struct row *row)
{
    if (row->messages > 0)
        return row->messages * row->bytes->each;
    return row->len > 0 ? row->len : row->bytes->len;
}

static size_t messages_of(const struct row *row)
{
    return row->messages > 0 ? row->messages : 1;
}

static void read_ours(const uint8_t *bytes, size_t len)
{
    uint64_t out[2];
    sink += fixgw_read(bytes, len, out) + out[0];
}

static void read_plain(const uint8_t *bytes, size_t len)
{
    size_t skip;
    sink += plain_read(bytes, len, &skip) + skip;
}

static void verdict_ours(const uint8_t *body, size_t len)
{
    uint64_t out[3];
    sink += fixgw_verdict(body, len, out) + out[1];
}

static void verdict_plain(const uint8_t *body, size_t len)
{
    sink += plain_verdict(body, len);
}

const struct fixgw_session active = RECORD(2, 2, FIXGW_ACTIVE, 2, 2, 30, 0);

struct plain_session plain_of(const struct fixgw_session *session)
{
    struct plain_session plain = {
        .ours_size = session->ours_len, .peer_size = session->peer_len, .status = session->words[FIXGW_WORD_STATUS],
        .expected = session->words[FIXGW_WORD_EXPECTED], .next_out = session->words[FIXGW_WORD_NEXT_OUT],
        .heartbeat = session->words[FIXGW_WORD_HEARTBEAT], .last_sent = session->words[FIXGW_WORD_LAST_SENT],
        .at = session->words[FIXGW_WORD_REPLAY_AT], .to = session->words[FIXGW_WORD_REPLAY_TO],
        .is_open = session->words[FIXGW_WORD_GAP_OPEN], .open_for = session->words[FIXGW_WORD_GAP_FOR],
        .highest = session->words[FIXGW_WORD_GAP_HIGHEST], .asked = session->words[FIXGW_WORD_GAP_ASKED],
    };
    memcpy(plain.ours, session->ours, FIXGW_COMP_ID);
    memcpy(plain.peer, session->peer, FIXGW_COMP_ID);
    return plain;
}

/* The records of the calls that are measured; before each, what a call may change is set back. */
static ALIGNED struct fixgw_session our_record;
static ALIGNED struct plain_session plain_record;
struct plain_session plain_active;

static void make_records(void)
{
    our_record = active;
    plain_record = plain_active = plain_of(&active);
}

struct fixgw_session *set_back(const struct fixgw_session *to)
{
    memcpy(our_record.words, to->words, FIXGW_WORDS_USED * sizeof to->words[0]);
    return &our_record;
}

struct plain_session *set_back_plain(const struct plain_session *to)
{
    plain_record.status = to->status;
    plain_record.expected = to->expected;
    plain_record.next_out = to->next_out;
    plain_record.heartbeat = to->heartbeat;
    plain_record.last_sent = to->last_sent;
    plain_record.at = to->at;
    plain_record.to = to->to;
    plain_record.is_open = to->is_open;
    plain_record.open_for = to->open_for;
    plain_record.highest = to->highest;
    plain_record.asked = to->asked;
    return &plain_record;
}

ALIGNED uint8_t our_store[FIXGW_STORE], plain_store[FIXGW_STORE];
const uint8_t no_reports[FIXGW_STORE];
static const uint8_t *lent = no_reports;
static bool is_changed;                     /* whether a call may have changed the stores since */

void lend(const uint8_t store[FIXGW_STORE])
{
    lent = store;
    is_changed = false;
    memcpy(our_store, store, FIXGW_STORE);
    memcpy(plain_store, store, FIXGW_STORE);
}

static void step_ours(const uint8_t *frame, size_t len)
{
    static ALIGNED uint8_t reply[FIXGW_LEAST_REPLY_ROOM];
    uint64_t out[2];
    uint32_t refusal = fixgw_session_step(set_back(&active), frame, len, CALL_TIME, reply, sizeof reply, our_store,
                                          sizeof our_store, out);
    sink += refusal + out[0] + out[1];
}

static void step_plain(const uint8_t *frame, size_t len)
{
    static ALIGNED uint8_t reply[FIXGW_LEAST_REPLY_ROOM];
    uint64_t out[2];
    uint32_t refusal = plain_step(set_back_plain(&plain_active), frame, len, CALL_TIME, reply, sizeof reply, plain_store,
                                  sizeof plain_store, out);
    sink += refusal + out[0] + out[1];
}

static void tick_ours(void)
{
    static ALIGNED uint8_t reply[FIXGW_LEAST_REPLY_ROOM];
    uint64_t out[1];
    sink += fixgw_session_tick(set_back(&active), CALL_TIME, reply, sizeof reply, out) + out[0];
}

static void tick_plain(void)
{
    static ALIGNED uint8_t reply[FIXGW_LEAST_REPLY_ROOM];
    uint64_t out[1];
    sink += plain_tick(set_back_plain(&plain_active), CALL_TIME, reply, sizeof reply, out) + out[0];
}

static void run_once(const struct row *row, enum side side)
{
    const uint8_t *bytes = row->bytes->at;
    size_t len = length_of(row);
    switch (row->kind) {
    case READ: (side == OURS ? read_ours : read_plain)(bytes, len); break;
    case VERDICT: (side == OURS ? verdict_ours : verdict_plain)(bytes + row->bytes->body, row->bytes->body_len); break;
    case STEP: (side == OURS ? step_ours : step_plain)(bytes, len); break;
    case CALL: (side == OURS ? row->ours : row->plain)(bytes, len); break;
    case FIELD: (side == OURS ? row->ours : row->plain)(bytes + row->bytes->body, row->bytes->body_len); break;
    case TICK: (side == OURS ? tick_ours : tick_plain)(); break;
    case REPORT: (side == OURS ? report_ours : report_plain)(); break;
    case REPORT_FULL: (side == OURS ? report_full_ours : report_full_plain)(); break;
    case REPLAY_REPORT: (side == OURS ? replay_report_ours : replay_report_plain)(); break;
    case REPLAY_FILL: (side == OURS ? replay_fill_ours : replay_fill_plain)(); break;
    case REPORT_VALUES:
        (side == OURS ? values_ours : values_plain)(bytes + row->bytes->body, row->bytes->body_len);
        break;
    case NOTHING: break;
    }
}

/* ---- Both sides answer alike ------------------------------------------------------------------------------------- */

void insist(int holds, const char *what)
{
    if (holds)
        return;
    printf("bench: %s: another answer than is meant\n", what);
    exit(1);
}

static void check_read(const struct row *row)
{
    uint64_t out[2];
    size_t len = length_of(row), skip, found = plain_read(row->bytes->at, len, &skip);
    uint32_t refusal = fixgw_read(row->bytes->at, len, out);
    insist(refusal == (found ? FIXGW_OK : FIXGW_REFUSED_NO_FRAME_YET) && out[0] == skip && out[1] == found, row->what);
    insist(found == (row->len > 0 ? 0 : len), row->what);
}

static void check_verdict(const struct row *row)
{
    const struct bytes *frame = row->bytes;
    uint64_t out[3], place[2];
    insist(fixgw_body(frame->at, frame->len, place) == FIXGW_OK && place[0] == frame->body
           && place[1] == frame->body_len, row->what);
    insist(plain_verdict(frame->at + frame->body, frame->body_len) == 0, row->what);
    insist(fixgw_verdict(frame->at + frame->body, frame->body_len, out) == FIXGW_OK && out[0] == 0, row->what);
}

struct pair pair_on(const struct fixgw_session *session, const char *what)
{
    struct pair pair = { .what = what, .ours = *session, .plain = plain_of(session) };
    if (is_changed)
        lend(lent);
    for (size_t i = 0; i < FIXGW_LEAST_REPLY_ROOM; i++)
        pair.our_reply[i] = pair.plain_reply[i] = (uint8_t)i;
    return pair;
}

static bool refusal_met[FIXGW_REFUSED_STORE + 1], reply_met[256];   /* by the type of a first reply */

uint8_t first_type(const uint8_t *reply, size_t len)
{
    uint64_t found[2], body[2];
    if (fixgw_read(reply, len, found) || fixgw_body(reply + found[0], found[1], body))
        return 0;
    return reply[found[0] + body[0] + 3];
}

void check_pair(const struct pair *pair, uint32_t refusal, uint32_t plain_refusal, size_t reply_len)
{
    struct plain_session ours = plain_of(&pair->ours);
    insist(refusal == plain_refusal, pair->what);
    insist(memcmp(&ours, &pair->plain, PLAIN_RECORD) == 0, pair->what);
    insist(pair->ours.words[FIXGW_WORD_VERSION] == FIXGW_RECORD_VERSION, pair->what);
    for (size_t word = FIXGW_WORDS_USED; word < FIXGW_WORDS; word++)
        insist(pair->ours.words[word] == 0, pair->what);
    insist(memcmp(pair->our_reply, pair->plain_reply, FIXGW_LEAST_REPLY_ROOM) == 0, pair->what);
    insist(memcmp(our_store, plain_store, FIXGW_STORE) == 0, pair->what);
    is_changed = !refusal;
    insist(!refusal || memcmp(our_store, lent, FIXGW_STORE) == 0, pair->what);
    refusal_met[refusal] = true;
    reply_met[first_type(pair->our_reply, reply_len)] = true;
}

static void check_step_on(const char *what, const struct fixgw_session *session, const struct bytes *frame, size_t len,
                          uint64_t time, size_t room, size_t stored)
{
    uint64_t out[2], plain_out[2];
    struct pair pair = pair_on(session, what);
    uint32_t refusal = fixgw_session_step(&pair.ours, frame->at, len, time, pair.our_reply, room, our_store, stored,
                                          out);
    uint32_t plain_refusal = plain_step(&pair.plain, frame->at, len, time, pair.plain_reply, room, plain_store, stored,
                                        plain_out);
    insist(out[0] == plain_out[0] && out[1] == plain_out[1], what);
    check_pair(&pair, refusal, plain_refusal, out[1]);
}

void check_step(const char *what, const struct fixgw_session *session, const struct bytes *frame, size_t len, uint64_t time,
                size_t room)
{
    check_step_on(what, session, frame, len, time, room, FIXGW_STORE);
}

static void check_tick(const char *what, const struct fixgw_session *session, uint64_t time, size_t room)
{
    uint64_t out[1], plain_out[1];
    struct pair pair = pair_on(session, what);
    uint32_t refusal = fixgw_session_tick(&pair.ours, time, pair.our_reply, room, out);
    uint32_t plain_refusal = plain_tick(&pair.plain, time, pair.plain_reply, room, plain_out);
    insist(out[0] == plain_out[0], what);
    check_pair(&pair, refusal, plain_refusal, out[0]);
}

/* Each rule and each answer of a session, on one record or another. */
static const char *const bodies[] = {
    HEADER("0"), HEADER("0") "112=HERE|", HEADER("0") "20001=a=b|20001=|", HEADER("0") "112=|",
    HEADER("0") "112=A|112=B|", HEADER("0") "no field|", HEADER("0") "8=FIXT.1.1|", HEADER("0") "112",
    HEADER("1") "112=ARE YOU THERE|", HEADER("1"),
    HEADER("2") "7=1|16=0|", HEADER("2") "7=1|16=1|", HEADER("2") "7=1|16=999999999|", HEADER("2") "7=9|16=0|",
    HEADER("2") "7=2|16=1|", HEADER("2") "7=0|16=0|", HEADER("2") "16=0|",
    HEADER("3") "45=1|371=34|372=AD|373=99|58=No|", HEADER("3") "45=01|",
    HEADER("4") "36=1|", HEADER("4") "36=2|", HEADER("4") "36=9|", HEADER("4") "123=N|36=9|", HEADER("4") "36=x|",
    HEADER("4") "123=Y|36=2|", HEADER("4") "123=Y|36=3|", HEADER("4") "123=Y|36=999999999|", HEADER("4") "123=Y|",
    HEADER("5"), HEADER("5") "1409=4|58=Bye|", HEADER("5") "1409=x|",
    HEADER("A") "98=0|108=60|1137=9|", HEADER("A") "98=0|108=1|1137=9|141=N|", HEADER("A") "98=0|108=5|1137=9|141=Y|",
    NUMBERED("A", "1") "98=0|108=30|1137=9|141=Y|", NUMBERED("A", "x") "98=0|108=30|1137=9|",
    HEADER("A") "98=0|108=61|1137=9|", HEADER("A") "98=0|108=30|",
    "35=A|49=XX|56=GW|34=2|52=20240102-09:30:00|98=0|108=30|1137=9|",
    HEADER("F") "11=C-1|41=C-0|54=1|48=GB00BH4HKS39|22=8|60=20240102-09:30:00|", HEADER("F") "11=C-1|",
    HEADER("AD") "568=R|569=0|453=1|448=P|447=D|452=12|22=8|48=GB00BH4HKS39|580=1|75=20240229|",
    HEADER("AD") "568=R|569=0|22=8|48=GB00BH4HKS39|580=1|75=20230229|", HEADER("AD") "20001=a|",
    HEADER("AE"), HEADER("AE") REPORT_TRADE REPORT_SIDE REPORT_PARTIES, HEADER("AE") REPORT_TRADE "552=1|",
    HEADER("AE") "43=Y|" REPORT_TRADE, HEADER("E"), HEADER("0") "571=T|", HEADER("AD") "568=R|571=T|",
    HEADER("Z"), HEADER(""), HEADER("AF"), "35=Z|34=2|", "35=||",
    "35=0|49=MM|56=GW|52=20240102-09:30:00|", NUMBERED("0", "02"), NUMBERED("0", "0"), NUMBERED("0", "1234567890"),
    NUMBERED("0", "000000000002"), NUMBERED("0", "0000000000002"), NUMBERED("0", "000000000000"),
    NUMBERED("A", "01") "98=0|108=030|1137=9|141=Y|", HEADER("2") "7=01|16=00|", HEADER("4") "123=Y|36=0003|",
    HEADER("AD") "568=R|569=0|453=001|448=P|447=D|452=12|22=8|48=GB00BH4HKS39|580=01|75=20240229|",
    NUMBERED("0", ""), NUMBERED("0", "2x"), NUMBERED("0", "2|34=9"), NUMBERED("0", "999999999"),
    "35=0|56=GW|34=2|52=20240102-09:30:00|", "35=0|49=MMX|56=GW|34=2|52=20240102-09:30:00|",
    "35=0|49=MM|34=2|52=20240102-09:30:00|", "35=AD|49=MM|56=G|34=2|52=20240102-09:30:00|",
    "35=0|34=2|56=GW|49=MM|43=N|52=20240102-09:30:00|", "35=0|34=2|49=MM|34=9|49=X|56=GW|52=20240102-09:30:00|",
    HEADER("0") "43=Y|", HEADER("0") "43=Y|122=20240102-09:29:00|", HEADER("0") "43=Y|122=|", HEADER("0") "43=|122=|",
    HEADER("0") "43=Y|122=20240102-09:30:00.001|", HEADER("AE") "43=Y|122=20240102-09:31:00|", HEADER("F") "43=Y|122=x|",
    "35=0|49=MM|56=GW|34=2|43=Y|122=20240102-09:29:00|", "35=1|49=MM|56=GW|34=2|52=20240102-09:30|43=Y|122=x|",
};

static const struct fixgw_session records[] = {
    RECORD(2, 2, FIXGW_ACTIVE, 2, 2, 30, 0), RECORD(2, 2, FIXGW_ACTIVE, 1, 2, 30, 0),
    RECORD(2, 2, FIXGW_ACTIVE, 3, 2, 30, 0), RECORD(2, 2, FIXGW_ACTIVE, 2, 1, 30, 0),
    RECORD(2, 2, FIXGW_ACTIVE, 2, 999999990, 30, 0), RECORD(2, 2, FIXGW_ACTIVE, 1, 10, 30, 0),
    RECORD(2, 2, FIXGW_WAITING, 2, 2, 30, 0), RECORD(2, 2, FIXGW_WAITING, 1, 1, 30, 0),
    RECORD(2, 2, FIXGW_WAITING, 3, 100, 30, 0), RECORD(2, 2, FIXGW_CLOSED, 2, 2, 30, 0),
    RECORD(2, 2, FIXGW_ACTIVE, 2, 2, 30, CALL_TIME - 30000000),
    RECORD(2, 2, FIXGW_ACTIVE, 2, 2, 30, CALL_TIME - 29999999), RECORD(2, 2, FIXGW_ACTIVE, 2, 2, 30, CALL_TIME + 1),
    RECORD(2, 2, FIXGW_ACTIVE, 999999991, 2, 30, 0), RECORD(2, 2, FIXGW_WAITING, 2, 999999991, 30, 0),
    RECORD(2, 2, FIXGW_CLOSED, 999999991, 2, 30, 0),
    RECORD(0, 2, FIXGW_ACTIVE, 2, 2, 30, 0), RECORD(2, 12, FIXGW_ACTIVE, 2, 2, 30, 0), RECORD(2, 2, 3, 2, 2, 30, 0),
    RECORD(2, 2, FIXGW_ACTIVE, 0, 2, 30, 0), RECORD(2, 2, FIXGW_ACTIVE, 2, 1000000000, 30, 0),
    RECORD(2, 2, FIXGW_ACTIVE, 2, 2, 0, 0), RECORD(2, 2, FIXGW_ACTIVE, 2, 2, 61, 0),
    RECORD(2, 2, FIXGW_ACTIVE, 2, 10, 30, 0, 1, 9), RECORD(2, 2, FIXGW_ACTIVE, 1, 10, 30, 0, 4, 4),
    RECORD(2, 2, FIXGW_ACTIVE, 999999991, 10, 30, 0, 1, 9), RECORD(2, 2, FIXGW_ACTIVE, 2, 10, 30, 0, 1, 10),
    RECORD(2, 2, FIXGW_ACTIVE, 2, 10, 30, 0, 5, 4), RECORD(2, 2, FIXGW_ACTIVE, 2, 10, 30, 0, 0, 4),
    RECORD(2, 2, FIXGW_WAITING, 2, 10, 30, 0, 4, 4), RECORD(2, 2, FIXGW_CLOSED, 2, 10, 30, 0, 4, 4),
    IN_GAP(FIXGW_ACTIVE, 1, 1, 1, CALL_TIME), IN_GAP(FIXGW_ACTIVE, 1, 1, 5, CALL_TIME),
    IN_GAP(FIXGW_ACTIVE, 1, 1, 2, CALL_TIME - 9999999), IN_GAP(FIXGW_ACTIVE, 1, 1, 2, CALL_TIME - 10000000),
    IN_GAP(FIXGW_ACTIVE, 1, 1, 2, CALL_TIME + 1), IN_GAP(FIXGW_ACTIVE, 1, 1, 2, ~(uint64_t)0),
    IN_GAP(FIXGW_ACTIVE, 1, 2, 1, CALL_TIME), IN_GAP(FIXGW_ACTIVE, 2, 1, 2, CALL_TIME),
    IN_GAP(FIXGW_ACTIVE, 2, 2, 9, CALL_TIME), IN_GAP(FIXGW_ACTIVE, 3, 3, 2, CALL_TIME),
    IN_GAP(FIXGW_ACTIVE, 999999991, 1, 2, CALL_TIME), IN_GAP(FIXGW_WAITING, 1, 1, 999999999, CALL_TIME),
    IN_GAP(FIXGW_WAITING, 2, 1, 9, CALL_TIME), IN_GAP(FIXGW_WAITING, 3, 1, 9, CALL_TIME),
    IN_GAP(FIXGW_WAITING, 3, 1, 2, CALL_TIME), IN_GAP(FIXGW_CLOSED, 3, 1, 2, CALL_TIME),
    IN_GAP(FIXGW_ACTIVE, 2, 0, 2, 0), IN_GAP(FIXGW_ACTIVE, 2, 1, 0, 0), IN_GAP(FIXGW_ACTIVE, 2, 1000000000, 2, 0),
    IN_GAP(FIXGW_ACTIVE, 2, 1, 1000000000, 0), RECORD(2, 2, FIXGW_ACTIVE, 2, 10, 30, 0, 0, 0, 2, 1, 2, 0),
    RECORD(2, 2, FIXGW_ACTIVE, 2, 10, 30, 0, 0, 0, 0, 1), RECORD(2, 2, FIXGW_ACTIVE, 2, 10, 30, 0, 0, 0, 0, 0, 1),
    RECORD(2, 2, FIXGW_ACTIVE, 2, 10, 30, 0, 0, 0, 0, 0, 0, 1),
    RECORD(2, 2, FIXGW_ACTIVE, 1, 10, 30, 0, 1, 9, 1, 1, 5, CALL_TIME),
    { 2, "GW", 2, "M\001", { FIXGW_RECORD_VERSION, FIXGW_ACTIVE, 2, 2, 30, 0 } },
};

enum {
    BODIES = sizeof bodies / sizeof bodies[0],
    RECORDS = sizeof records / sizeof records[0],
    ROOM = FIXGW_LEAST_REPLY_ROOM
};

static void check_bodies(const struct fixgw_session *session)
{
    static struct bytes frame;
    for (size_t i = 0; i < BODIES; i++) {
        make_frame(&frame, bodies[i]);
        check_step(bodies[i], session, &frame, frame.len, CALL_TIME, ROOM);
    }
}

/* The refusals of the frame, the time and the room, which stand before those of the status and the numbers. */
static void check_calls(const struct fixgw_session *session)
{
    check_step("a step without bytes", session, &heartbeat, 0, CALL_TIME, ROOM);
    check_step_on("a step with a short store", session, &heartbeat, 0, FIXGW_END_OF_TIME, 0, FIXGW_STORE - 1);
    check_step_on("a step without a store", session, &heartbeat, heartbeat.len, CALL_TIME, ROOM, 0);
    check_step("a step on a torn frame", session, &heartbeat, heartbeat.len - 1, FIXGW_END_OF_TIME, ROOM - 1);
    check_step("a step on two frames", session, &stream, 2 * request.len, CALL_TIME, ROOM);
    check_step("a step past all time", session, &test_request, test_request.len, FIXGW_END_OF_TIME, ROOM - 1);
    check_step("a step at the end of time", session, &test_request, test_request.len, FIXGW_END_OF_TIME - 1, ROOM);
    check_step("a step without room", session, &test_request, test_request.len, CALL_TIME, ROOM - 1);
    check_tick("a tick", session, CALL_TIME, ROOM);
    check_tick("a tick past all time", session, FIXGW_END_OF_TIME, ROOM - 1);
    check_tick("a tick at the end of time", session, FIXGW_END_OF_TIME - 1, ROOM);
    check_tick("a tick without room", session, CALL_TIME, ROOM - 1);
}

/* Steps, ticks and reports of all kinds: every refusal that they can give is met, and every type that they can write. */
static void check_sessions(void)
{
    static const uint8_t refusals[] = { 0, 2, 3, 4, 5, 6, 7, 8, 9, 10, 11, 12, 13, 14 };
    for (size_t i = 0; i < RECORDS; i++) {
        lend(full_store);
        check_bodies(&records[i]);
        check_calls(&records[i]);
        check_messages(&records[i]);
        check_replays(&records[i]);
        check_report_on("a report into a full store", &records[i]);
        lend(no_reports);
        check_replays(&records[i]);
        check_reports(&records[i]);
    }
    for (size_t i = 0; i < sizeof refusals; i++)
        insist(refusal_met[refusals[i]], "the refusals of a session");
    for (const char *type = "012345A"; *type; type++)        /* of a replay's messages the gap fill alone */
        insist(reply_met[(uint8_t)*type], "the replies of a session");
    for (size_t i = 0; i < BODIES; i++) {
        check_values(bodies[i]);
        check_first_field(bodies[i]);
    }
    check_report_bodies();
    check_places();
    check_stores();
}

/* In single bytes: what is measured, and bytes that hold no frame, with a frame behind them. */
static void check_lines(void)
{
    static struct bytes mixed;
    const struct bytes *parts[] = { &noise, &heartbeat, &marks, &request, &torn, &greatest, &heartbeat };
    check_streams(stream.at, 10 * stream.each);
    check_streams(greatest_stream.at, 2 * greatest_stream.each);
    for (size_t i = 0; i < sizeof parts / sizeof parts[0]; i++) {
        size_t len = parts[i]->len < 5000 ? parts[i]->len : 5000;
        memcpy(mixed.at + mixed.len, parts[i]->at, len);
        mixed.len += len;
    }
    check_streams(mixed.at, mixed.len);
    check_pieces();
}

static void check_all(void)
{
    for (size_t i = 0; i < ROWS; i++) {
        const struct row *row = &rows[i];
        if (row->kind == READ)
            check_read(row);
        if (row->kind == VERDICT || row->kind == STEP)
            check_verdict(row);
        if (row->kind == STEP)
            check_step(row->what, &active, row->bytes, row->bytes->len, CALL_TIME, ROOM);
        if (row->kind == TICK)
            check_tick(row->what, &active, CALL_TIME, ROOM);
    }
    check_readings(&greatest);
    check_sums(noise.at);
    check_sessions();
    check_lines();
    check_fields();
    check_replies();
    check_writer();
}

/* ---- Measuring --------------------------------------------------------------------------------------------------- */

enum { STEADY_CLOCK = 1 };

static uint64_t nanoseconds(void)
{
    struct timespec now = { 0, 0 };
    clock_gettime(STEADY_CLOCK, &now);
    return (uint64_t)now.tv_sec * 1000000000u + (uint64_t)now.tv_nsec;
}

static uint64_t time_of(size_t section, uint64_t repeats)
{
    const struct row *row = &rows[section / 2];
    enum side side = section % 2 ? PLAIN : OURS;
    lend(row->store);
    uint64_t began = nanoseconds();
    close(MARK_OF_COUNTER);
    for (uint64_t i = 0; i < repeats; i++)
        run_once(row, side);
    close(MARK_OF_COUNTER + (int)section + 1);
    return nanoseconds() - began;
}

/* The best time of several turns. */
static void measure(size_t section, uint64_t repeats, uint64_t turns)
{
    const struct row *row = &rows[section / 2];
    uint64_t best = time_of(section, repeats);
    for (uint64_t turn = 1; turn < turns; turn++) {
        uint64_t time = time_of(section, repeats);
        best = time < best ? time : best;
    }
    printf("%lu|%s|%lu|%lu|%s|%lu|%lu|%s\n", (unsigned long)section, row->what, (unsigned long)length_of(row),
           (unsigned long)messages_of(row), section % 2 ? "plain" : "ours", (unsigned long)repeats,
           (unsigned long)best, row->series);
}

static uint64_t number_of(const char *text)
{
    uint64_t number = 0;
    while (*text)
        number = 10 * number + (uint64_t)(*text++ - '0');
    return number;
}

/* All sections; or, for a tool that counts a whole run, one section with a number of repeats. */
int main(int count, char **words)
{
    make_all();
    make_bodies();
    make_replies();
    make_drafts();
    make_records();
    make_draft();
    make_stores();
    check_all();
    if (count == 3 && number_of(words[1]) < 2 * ROWS) {
        measure(number_of(words[1]), number_of(words[2]), 1);
        return sink == 1;
    }
    for (size_t section = 0; section < 2 * ROWS; section++)
        measure(section, rows[section / 2].repeats, TURNS);
    return sink == 1;
}
