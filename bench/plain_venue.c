/* The messages that a plain C11 session of document 01 sends of its own: a tick's Heartbeat, the venue's Logout and its Test
   Request. It shares nothing with the library. */
#include "plain_replies.h"

static uint32_t refusal_of_call(const struct plain_session *session, uint64_t time, size_t room)
{
    if (!in_range(session))
        return BAD_RECORD;
    if (time >= END_OF_TIME)
        return PAST_TIME;
    return room < LEAST_ROOM ? NO_ROOM : 0;
}

/* Of a message that the venue sends when it sees fit; refusal 5 closes the session. */
static uint32_t refusal_of_message(struct plain_session *session, uint64_t time, size_t room)
{
    uint32_t refusal = refusal_of_call(session, time, room);
    if (refusal)
        return refusal;
    if (session->status != ACTIVE)
        return IS_CLOSED;
    return is_used_up(session) ? closed(session, USED_UP) : 0;
}

uint32_t plain_tick(struct plain_session *session, uint64_t time, uint8_t *buf, size_t room, uint64_t out[1])
{
    uint32_t refusal = refusal_of_call(session, time, room);
    out[0] = 0;
    if (refusal || session->status != ACTIVE)
        return refusal;
    if (is_used_up(session))
        return closed(session, USED_UP);
    if (time < session->last_sent || time - session->last_sent < 1000000 * session->heartbeat)
        return 0;
    struct call call = { .session = session, .time = time, .reply = buf };
    send_heartbeat(&call, (struct value){ 0, 0 });
    out[0] = (uint64_t)(call.reply - buf);
    return 0;
}

uint32_t plain_logout(struct plain_session *session, uint64_t time, uint8_t *buf, size_t room, uint64_t out[1])
{
    uint32_t refusal = refusal_of_message(session, time, room);
    out[0] = 0;
    if (refusal)
        return refusal;
    struct call call = { .session = session, .time = time, .reply = buf };
    send_logout(&call, ENDED_BY_GATEWAY);
    out[0] = (uint64_t)(call.reply - buf);
    return 0;
}

uint32_t plain_test_request(struct plain_session *session, const uint8_t *id, size_t id_size, uint64_t time, uint8_t *buf,
                            size_t room, uint64_t out[1])
{
    uint32_t refusal = refusal_of_message(session, time, room);
    out[0] = 0;
    if (refusal)
        return refusal;
    if (id_size < 1 || id_size > 64 || memchr(id, BAR, id_size))
        return BAD_VALUES;
    struct call call = { .session = session, .time = time, .reply = buf };
    send_test_request(&call, (struct value){ id, id_size });
    out[0] = (uint64_t)(call.reply - buf);
    return 0;
}
