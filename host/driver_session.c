/* The driver's requests on a session's record: new, reconnect, step, tick, replay. */
#include "driver.h"

enum { GREATEST_LENGTH = 255 };             /* of a CompID in a record */

/* A CompID's length as a record can hold it: it is one byte, and all above 11 are refused alike. */
static uint8_t length_of(struct slice given)
{
    return given.len < GREATEST_LENGTH ? (uint8_t)given.len : GREATEST_LENGTH;
}

/* The bytes behind a CompID's length mean nothing; they are set to the byte that no CompID may hold. */
static void set_comp_id(uint8_t place[FIXGW_COMP_ID], uint8_t *len, struct slice given)
{
    memset(place, 1, FIXGW_COMP_ID);
    if (given.len > 0)
        memcpy(place, given.at, given.len < FIXGW_COMP_ID ? given.len : FIXGW_COMP_ID);
    *len = length_of(given);
}

/* The words that a request gives are those that are used, behind the version; the version and zeros are set here. */
bool take_record(struct words *in, struct record *record)
{
    struct fixgw_session *session = &record->session;
    if (!take_bytes(in, &record->ours) || !take_bytes(in, &record->peer))
        return false;
    set_comp_id(session->ours, &session->ours_len, record->ours);
    set_comp_id(session->peer, &session->peer_len, record->peer);
    memset(session->words, 0, sizeof session->words);
    session->words[FIXGW_WORD_VERSION] = FIXGW_RECORD_VERSION;
    for (size_t word = FIXGW_WORD_STATUS; word < FIXGW_WORDS_USED; word++)
        if (!take_number(in, GREATEST_NUMBER, &session->words[word]))
            return false;
    return true;
}

static void say_comp_id(const uint8_t place[FIXGW_COMP_ID], uint8_t len, struct slice given)
{
    say(" ");
    say_hex(place, len < FIXGW_COMP_ID ? len : FIXGW_COMP_ID);
    if (len > FIXGW_COMP_ID && len == length_of(given))
        say_digits_of(given.at + FIXGW_COMP_ID, given.len - FIXGW_COMP_ID);
}

bool is_of_this_version(const struct fixgw_session *session)
{
    if (session->words[FIXGW_WORD_VERSION] != FIXGW_RECORD_VERSION) {
        say("another version of the record");
        return false;
    }
    return are_zero(session->words + FIXGW_WORDS_USED, FIXGW_WORDS - FIXGW_WORDS_USED);
}

void say_record(const struct record *record)
{
    const struct fixgw_session *session = &record->session;
    say_comp_id(session->ours, session->ours_len, record->ours);
    say_comp_id(session->peer, session->peer_len, record->peer);
    for (size_t word = FIXGW_WORD_STATUS; word < FIXGW_WORDS_USED; word++) {
        say(" ");
        say_number(session->words[word]);
    }
}

bool answer_new(struct words *in)
{
    struct record record;
    if (!take_bytes(in, &record.ours) || !take_bytes(in, &record.peer) || !all_taken(in))
        return false;
    memset(&record.session, 0xa5, sizeof record.session);
    uint32_t refusal =
        fixgw_session_new(&record.session, record.ours.at, record.ours.len, record.peer.at, record.peer.len);
    if (!is_of_this_version(&record.session))
        return true;
    say_outcome(refusal);
    say_record(&record);
    return true;
}

bool answer_reconnect(struct words *in)
{
    struct record record;
    if (!take_record(in, &record) || !all_taken(in))
        return false;
    uint32_t refusal = fixgw_session_reconnect(&record.session);
    if (!is_of_this_version(&record.session))
        return true;
    say_outcome(refusal);
    say_record(&record);
    return true;
}

bool answer_step(struct words *in)
{
    uint64_t time, room, out[2] = { UNSET, UNSET };
    struct slice frame;
    struct record record;
    struct store store;
    if (!take_number(in, GREATEST_NUMBER, &time) || !take_number(in, MOST_LENT, &room) || !take_bytes(in, &frame)
        || !take_record(in, &record) || !take_store(in, &store) || !all_taken(in))
        return false;
    lend(room);
    uint32_t refusal = fixgw_session_step(&record.session, frame.at, frame.len, time, lent, room, store.at, store.len,
                                          out);
    if (!is_kept(room, refusal ? 0 : out[1]) || (refusal && !are_zero(out, 2)) || !is_of_this_version(&record.session)
        || !is_store_kept(&store, !refusal))
        return true;
    say_outcome(refusal);
    if (!refusal) {
        say(" ");
        say_number(out[0]);
        say(" ");
        say_hex(lent, out[1]);
    }
    say_record(&record);
    if (!refusal)
        say_store(&store);
    return true;
}

bool say_reply(uint32_t refusal, uint64_t room, const uint64_t out[1], const struct record *record)
{
    if (!is_kept(room, refusal ? 0 : out[0]) || (refusal && !are_zero(out, 1)) || !is_of_this_version(&record->session))
        return false;
    say_outcome(refusal);
    if (!refusal) {
        say(" ");
        say_hex(lent, out[0]);
    }
    say_record(record);
    return true;
}

bool answer_tick(struct words *in)
{
    uint64_t time, room, out[1] = { UNSET };
    struct record record;
    if (!take_number(in, GREATEST_NUMBER, &time) || !take_number(in, MOST_LENT, &room) || !take_record(in, &record)
        || !all_taken(in))
        return false;
    lend(room);
    uint32_t refusal = fixgw_session_tick(&record.session, time, lent, room, out);
    say_reply(refusal, room, out, &record);
    return true;
}

bool answer_replay(struct words *in)
{
    uint64_t time, room, out[1] = { UNSET };
    struct record record;
    struct store store;
    if (!take_number(in, GREATEST_NUMBER, &time) || !take_number(in, MOST_LENT, &room) || !take_record(in, &record)
        || !take_store(in, &store) || !all_taken(in))
        return false;
    lend(room);
    uint32_t refusal = fixgw_session_replay(&record.session, time, lent, room, store.at, store.len, out);
    if (is_store_kept(&store, false))
        say_reply(refusal, room, out, &record);
    return true;
}
