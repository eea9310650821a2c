/* Each reply of a session by a step that writes it, and the messages that the venue sends of its own, on both sides. */
#include "bench.h"

#define SENT(type) "35=" type "|49=GW|56=MM|34=2|52=20240102-09:30:00.000000|"
#define TEST_ID "ARE YOU THERE"

struct bytes logon, reset_logon, logout, unclean, too_high, duplicate, logout_out, test_request_out;

static const struct fixgw_session waiting = RECORD(2, 2, FIXGW_WAITING, 2, 2, 30, 0);
static const struct fixgw_session in_gap = IN_GAP(FIXGW_ACTIVE, 2, 2, 8, CALL_TIME);
static struct plain_session plain_waiting, plain_in_gap;

void make_replies(void)
{
    plain_waiting = plain_of(&waiting);
    plain_in_gap = plain_of(&in_gap);
    make_frame(&logon, HEADER("A") "98=0|108=30|1137=9|");
    make_frame(&reset_logon, NUMBERED("A", "1") "98=0|108=30|1137=9|141=Y|");
    make_frame(&logout, HEADER("5"));
    make_frame(&unclean, HEADER("0") "112=|");
    make_frame(&too_high, NUMBERED("0", "9"));
    make_frame(&duplicate, NUMBERED("0", "1") "43=Y|122=20240102-09:29:00.000000|");
    make_frame(&logout_out, SENT("5") "1409=101|");
    make_frame(&test_request_out, SENT("1") "112=" TEST_ID "|");
}

/* ---- What is measured -------------------------------------------------------------------------------------------- */

static ALIGNED uint8_t our_reply[FIXGW_LEAST_REPLY_ROOM], plain_reply[FIXGW_LEAST_REPLY_ROOM];

static uint64_t step_on(const struct fixgw_session *session, const uint8_t *frame, size_t len)
{
    uint64_t out[2];
    uint32_t refusal = fixgw_session_step(set_back(session), frame, len, CALL_TIME, our_reply, sizeof our_reply, our_store,
                                          sizeof our_store, out);
    sink += refusal + out[0];
    return out[1];
}

static uint64_t plain_step_on(const struct plain_session *session, const uint8_t *frame, size_t len)
{
    uint64_t out[2];
    uint32_t refusal = plain_step(set_back_plain(session), frame, len, CALL_TIME, plain_reply, sizeof plain_reply,
                                  plain_store, sizeof plain_store, out);
    sink += refusal + out[0];
    return out[1];
}

void active_step_ours(const uint8_t *frame, size_t len)
{
    sink += step_on(&active, frame, len);
}

void active_step_plain(const uint8_t *frame, size_t len)
{
    sink += plain_step_on(&plain_active, frame, len);
}

void waiting_step_ours(const uint8_t *frame, size_t len)
{
    sink += step_on(&waiting, frame, len);
}

void waiting_step_plain(const uint8_t *frame, size_t len)
{
    sink += plain_step_on(&plain_waiting, frame, len);
}

void gap_step_ours(const uint8_t *frame, size_t len)
{
    sink += step_on(&in_gap, frame, len);
}

void gap_step_plain(const uint8_t *frame, size_t len)
{
    sink += plain_step_on(&plain_in_gap, frame, len);
}

/* The bytes of the venue's own messages are those that go out. */
void logout_ours(const uint8_t *message, size_t len)
{
    uint64_t out[1];
    sink += fixgw_session_logout(set_back(&active), CALL_TIME, our_reply, sizeof our_reply, out) + out[0];
    (void)message, (void)len;
}

void logout_plain(const uint8_t *message, size_t len)
{
    uint64_t out[1];
    sink += plain_logout(set_back_plain(&plain_active), CALL_TIME, plain_reply, sizeof plain_reply, out) + out[0];
    (void)message, (void)len;
}

static const uint8_t test_id[] = TEST_ID;

void test_request_ours(const uint8_t *message, size_t len)
{
    uint64_t out[1];
    uint32_t refusal = fixgw_session_test_request(set_back(&active), test_id, sizeof test_id - 1, CALL_TIME, our_reply,
                                                  sizeof our_reply, out);
    sink += refusal + out[0];
    (void)message, (void)len;
}

void test_request_plain(const uint8_t *message, size_t len)
{
    uint64_t out[1];
    uint32_t refusal = plain_test_request(set_back_plain(&plain_active), test_id, sizeof test_id - 1, CALL_TIME,
                                          plain_reply, sizeof plain_reply, out);
    sink += refusal + out[0];
    (void)message, (void)len;
}

/* ---- Both sides answer alike ------------------------------------------------------------------------------------- */

static void check_logout(const char *what, const struct fixgw_session *session, uint64_t time, size_t room)
{
    uint64_t out[1], plain_out[1];
    struct pair pair = pair_on(session, what);
    uint32_t refusal = fixgw_session_logout(&pair.ours, time, pair.our_reply, room, out);
    uint32_t plain_refusal = plain_logout(&pair.plain, time, pair.plain_reply, room, plain_out);
    insist(out[0] == plain_out[0], what);
    check_pair(&pair, refusal, plain_refusal, out[0]);
}

static void check_test_request(const struct fixgw_session *session, const char *id, size_t len, uint64_t time, size_t room)
{
    uint64_t out[1], plain_out[1];
    struct pair pair = pair_on(session, "a Test Request");
    uint32_t refusal = fixgw_session_test_request(&pair.ours, (const uint8_t *)id, len, time, pair.our_reply, room, out);
    uint32_t plain_refusal = plain_test_request(&pair.plain, (const uint8_t *)id, len, time, pair.plain_reply, room,
                                                plain_out);
    insist(out[0] == plain_out[0], pair.what);
    check_pair(&pair, refusal, plain_refusal, out[0]);
}

#define SIXTY_FOUR "ABCDEFGHIJKLMNOPQRSTUVWXYZ012345ABCDEFGHIJKLMNOPQRSTUVWXYZ01234="

void check_messages(const struct fixgw_session *session)
{
    enum { ROOM = FIXGW_LEAST_REPLY_ROOM };
    static const char id[] = SIXTY_FOUR "+\001";
    check_logout("a Logout", session, CALL_TIME, ROOM);
    check_logout("a Logout at the end of time", session, FIXGW_END_OF_TIME - 1, ROOM);
    check_logout("a Logout past all time", session, FIXGW_END_OF_TIME, ROOM - 1);
    check_logout("a Logout without room", session, CALL_TIME, ROOM - 1);
    check_logout("a Logout without a buffer", session, 0, 0);
    for (size_t len = 0; len < sizeof id; len++) {
        check_test_request(session, id, len, CALL_TIME, ROOM);
        check_test_request(session, id + sizeof id - 1 - len, len, CALL_TIME, ROOM);
    }
    check_test_request(session, id, 3, 0, ROOM);
    check_test_request(session, id, 3, FIXGW_END_OF_TIME - 1, ROOM);
    check_test_request(session, id, 0, FIXGW_END_OF_TIME, ROOM - 1);
    check_test_request(session, id, 0, CALL_TIME, ROOM - 1);
    check_test_request(session, NULL, 0, CALL_TIME, ROOM);
}

/* A step that is measured, and the type of its reply, 0 for none. */
static void check_reply(const struct fixgw_session *session, const struct bytes *frame, uint8_t type)
{
    check_step("a step that is answered", session, frame, frame->len, CALL_TIME, FIXGW_LEAST_REPLY_ROOM);
    uint64_t len = step_on(session, frame->at, frame->len);
    insist(first_type(our_reply, len) == type, "the reply of a step");
}

/* What 52 and 122 of a duplicate may hold, the field's name with it or no field. */
static const char *const sendings[] = {
    "", "52=|", "52=x|", "52=20240102-09:30:00|", "52=20240102-09:30:00.000|", "52=20240102-09:30:00.000000|",
    "52=20240102-09:30:00.120|", "52=20240102-09:30:00.120000|", "52=20240102-09:30:60|", "52=20240102-09:30:60.999999|",
    "52=20240102-09:31:00|", "52=20240102-10:00:00|", "52=20240103-00:00:00|", "52=20240201-00:00:00|",
    "52=20250101-00:00:00|", "52=20230229-09:30:00|", "52=20240102-24:00:00|", "52=20240102-09:30:00.1|",
};
static const char *const originals[] = {
    "", "122=|", "122=x|", "122=20240102-09:30:00|", "122=20240102-09:30:00.000|", "122=20240102-09:30:00.000001|",
    "122=20240102-09:30:00.120|", "122=20240102-09:30:00.119999|", "122=20240102-09:30:00.120001|",
    "122=20240102-09:30:59.999999|", "122=20240102-09:30:60|", "122=20240102-09:31:00|", "122=20240102-10:00:00.001|",
    "122=20240103-00:00:00|", "122=20240201-00:00:00|", "122=20250101-00:00:00|", "122=20230229-09:30:00|",
    "122=20240102-24:00:00|", "122=20240102-09:30:00.1|", "122=20240102-09:30:00|122=20990101-00:00:00|",
};

/* Each with each, 122 behind 52 and before it, in a message of a type that is known and in one that is not. */
static void check_duplicates(void)
{
    static const char *const fronts[] = { "35=AD|49=MM|56=GW|34=1|43=Y|", "35=ZZ|49=MM|56=GW|34=1|43=Y|" };
    static struct bytes frame;
    char body[200];
    for (size_t i = 0; i < sizeof sendings / sizeof sendings[0]; i++)
        for (size_t j = 0; j < sizeof originals / sizeof originals[0]; j++)
            for (size_t way = 0; way < 4; way++) {
                const char *first = way & 1 ? originals[j] : sendings[i], *second = way & 1 ? sendings[i] : originals[j];
                snprintf(body, sizeof body, "%s%s%s", fronts[way / 2], first, second);
                make_frame(&frame, body);
                check_step(body, &active, &frame, frame.len, CALL_TIME, FIXGW_LEAST_REPLY_ROOM);
            }
}

void check_replies(void)
{
    check_reply(&waiting, &logon, 'A');
    check_reply(&waiting, &reset_logon, 'A');
    check_reply(&active, &logout, '5');
    check_reply(&active, &unclean, '3');
    check_reply(&active, &too_high, '2');
    check_reply(&in_gap, &too_high, 0);
    check_reply(&active, &duplicate, 0);
    check_duplicates();
    logout_ours(NULL, 0);
    insist(memcmp(our_reply, logout_out.at, logout_out.len) == 0, "the venue's Logout");
    test_request_ours(NULL, 0);
    insist(memcmp(our_reply, test_request_out.at, test_request_out.len) == 0, "the venue's Test Request");
}
