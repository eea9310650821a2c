/* A session's call under way and the replies that it writes, which plain_session.c and plain_venue.c share, inline in each. */
#ifndef PLAIN_REPLIES_H
#define PLAIN_REPLIES_H

#include "plain_inside.h"

/* 373 of a Reject, and 1409 of a Logout. */
enum { REQUIRED_MISSING = 1, BAD_VALUE = 5, BAD_FORM = 6, BAD_COMP_ID = 9, BAD_SENDING_TIME = 10, BAD_TYPE = 11, OTHER = 99 };
enum { LOGOUT_COMPLETE = 4, ENDED_BY_GATEWAY = 101 };

/* The value of a field; nowhere if the field is absent. */
struct value {
    const uint8_t *at;
    size_t size;
};

/* One call under way. */
struct call {
    struct plain_session *session;
    uint64_t time;
    uint8_t *reply;                         /* where the next message goes */
    uint8_t *store;
    const uint8_t *body, *end;
    struct value number, sender, target;    /* 34, 49 and 56 */
    uint64_t n;                             /* N, or 0 if it is unreadable */
    uint8_t type;                           /* one of the ten, with D for AD and E for AE, or 0 */
    int delivered;
};

/* ---- Writing ----------------------------------------------------------------------------------------------------- */

/* 35, 49, 56, 34 with the next number, and 52, where the next message goes. */
static inline uint8_t *put_header(struct call *call, char type)
{
    uint8_t *to = put_ids(body_in(call->reply), call->session, type, call->session->next_out++);
    to = PUT(to, "\00152=");
    return put_time(to, call->time);
}

static inline void send_body(struct call *call, uint8_t *end)
{
    *end++ = BAR;
    call->reply = put_around(call->reply, end);
    call->session->last_sent = call->time;
}

/* With 112, where there is one. */
static inline void send_with_id(struct call *call, char type, struct value id)
{
    uint8_t *to = put_header(call, type);
    if (id.at) {
        to = PUT(to, "\001112=");
        to = put(to, id.at, id.size);
    }
    send_body(call, to);
}

static inline void send_heartbeat(struct call *call, struct value id)
{
    send_with_id(call, '0', id);
}

static inline void send_test_request(struct call *call, struct value id)
{
    send_with_id(call, '1', id);
}

static inline void send_resend_request(struct call *call)
{
    uint8_t *to = put_header(call, '2');
    to = PUT(to, "\0017=");
    to = put_number(to, call->session->expected);
    to = PUT(to, "\00116=0");
    send_body(call, to);
}

static inline uint8_t *put_type(uint8_t *to, uint8_t type)
{
    to = PUT(to, "\001372=");
    if (type == 'D' || type == 'E')
        *to++ = 'A';
    *to++ = type;
    return to;
}

static inline void send_reject(struct call *call, uint32_t reason, uint32_t tag)
{
    uint8_t *to = put_header(call, '3');
    to = PUT(to, "\00145=");
    to = put_number(to, call->n);
    if (tag) {
        to = PUT(to, "\001371=");
        to = put_number(to, tag);
    }
    if (call->type)
        to = put_type(to, call->type);
    to = PUT(to, "\001373=");
    to = put_number(to, reason);
    send_body(call, to);
}

static inline void send_logout(struct call *call, uint64_t status)
{
    uint8_t *to = put_header(call, '5');
    to = PUT(to, "\0011409=");
    to = put_number(to, status);
    send_body(call, to);
    closed(call->session, 0);
}

static inline void send_logon(struct call *call, int reset)
{
    uint8_t *to = put_header(call, 'A');
    to = PUT(to, "\00198=0\001108=");
    to = put_number(to, call->session->heartbeat);
    to = PUT(to, "\0011137=9");
    if (reset)
        to = PUT(to, "\001141=Y");
    send_body(call, to);
}

#endif
