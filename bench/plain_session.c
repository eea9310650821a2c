/* A plain C11 session of documents 01 and 02, its step, over the reader and verdict of plain.c: the moves change the record
   and write their replies straight away. It shares nothing with the library. */
#include "plain_replies.h"
#include "plain_values.h"

/* ---- What a move reads ------------------------------------------------------------------------------------------- */

#define FIRST(call, tag) first_field(call, tag "=", sizeof tag)

/* The next `|`, for what is short: a body ends with one, and so does its length. */
static const uint8_t *next_bar(const uint8_t *p)
{
    while (*p != BAR)
        p++;
    return p;
}

static struct value first_field(const struct call *call, const char *front, size_t size)
{
    const uint8_t *bar;
    for (const uint8_t *p = call->body; p < call->end; p = bar + 1) {
        bar = memchr(p, BAR, (size_t)(call->end - p));
        if (*p == (uint8_t)*front && (size_t)(bar - p) >= size && memcmp(p, front, size) == 0)
            return (struct value){ p + size, (size_t)(bar - p) - size };
    }
    return (struct value){ 0, 0 };
}

static int is_it(struct value value, const uint8_t *s, size_t n)
{
    return value.size == n && memcmp(value.at, s, n) == 0;
}

static int is_yes(struct value value)
{
    return value.size == 1 && *value.at == 'Y';
}

/* A number of 1 to 12 digits up to 999,999,999; 0 for anything else. */
static uint64_t number_in(struct value value)
{
    uint64_t total = 0;
    if (value.size == 0 || value.size > NUMBER_DIGITS)
        return 0;
    for (size_t i = 0; i < value.size; i++) {
        uint8_t digit = (uint8_t)(value.at[i] - '0');
        if (digit > 9)
            return 0;
        total = 10 * total + digit;
    }
    return total > GREATEST_NUMBER ? 0 : total;
}

enum { UP_TO_SECONDS = 17 };                /* YYYYMMDD-HH:MM:SS */

static int is_time(struct value value)
{
    return check_time(value.at, value.size) == 0;
}

static uint32_t micros(struct value time)
{
    const uint8_t *decimals = time.at + UP_TO_SECONDS + 1;
    if (time.size == UP_TO_SECONDS)
        return 0;
    return time.size == UP_TO_SECONDS + 4 ? 1000 * number(decimals, 3) : number(decimals, 6);
}

/* Of two times: up to the seconds the parts stand in the order of their weight, each at its width. */
static int is_later(struct value time, struct value than)
{
    int order = memcmp(time.at, than.at, UP_TO_SECONDS);
    return order ? order > 0 : micros(time) > micros(than);
}

/* Where the pass over the header keeps the field at p, if it does. */
static struct value *place_of(struct call *call, const uint8_t *p)
{
    if (p[2] != '=')
        return 0;
    switch (p[0] << 8 | p[1]) {
    case '3' << 8 | '4': return &call->number;
    case '4' << 8 | '9': return &call->sender;
    case '5' << 8 | '6': return &call->target;
    default: return 0;
    }
}

/* One pass up to the last of the first fields 34, 49 and 56. Behind the body stands the trailer, so three bytes can be
   looked at everywhere. */
static void read_header(struct call *call)
{
    const uint8_t *bar;
    int missing = 3;
    for (const uint8_t *p = call->body; p < call->end && missing; p = bar + 1) {
        struct value *place = place_of(call, p);
        bar = next_bar(p);
        if (place && !place->at) {
            *place = (struct value){ p + 3, (size_t)(bar - p) - 3 };
            missing--;
        }
    }
    call->n = number_in(call->number);
}

static uint8_t type_at(const uint8_t *type)
{
    if (type[1] == BAR)
        return (type[0] >= '0' && type[0] <= '5') || type[0] == 'A' || type[0] == 'F' ? type[0] : 0;
    return type[0] == 'A' && (type[1] == 'D' || type[1] == 'E') && type[2] == BAR ? type[1] : 0;
}

/* The CompID's tag that is missing or not as it should be, or 0. */
static uint32_t wrong_comp_id(const struct call *call)
{
    const struct plain_session *session = call->session;
    if (!is_it(call->sender, session->peer, session->peer_size))
        return 49;
    return is_it(call->target, session->ours, session->ours_size) ? 0 : 56;
}

static uint32_t verdict(const struct call *call)
{
    return plain_verdict(call->body, (size_t)(call->end - call->body));
}

/* ---- The gap ----------------------------------------------------------------------------------------------------- */

static void close_gap(struct plain_session *session)
{
    session->is_open = session->open_for = session->highest = session->asked = 0;
}

static void see(struct call *call)
{
    if (call->n > call->session->highest)
        call->session->highest = call->n;
}

static void ask(struct call *call)
{
    call->session->is_open = 1;
    call->session->open_for = call->session->expected;
    call->session->asked = call->time;
    send_resend_request(call);
}

/* A clock that went back counts as passed. */
static int has_passed(const struct call *call)
{
    uint64_t asked = call->session->asked;
    return call->time < asked || call->time - asked >= RE_ASK;
}

static int is_to_ask(const struct call *call)
{
    const struct plain_session *session = call->session;
    return !session->is_open || session->open_for != session->expected || has_passed(call);
}

/* ---- Waiting ----------------------------------------------------------------------------------------------------- */

static void accept_logon(struct call *call, int reset)
{
    call->session->status = ACTIVE;
    close_gap(call->session);
    call->session->heartbeat = number_in(FIRST(call, "108"));
    send_logon(call, reset);
}

static void logon_with_reset(struct call *call)
{
    if (call->n != 1) {
        send_logout(call, ENDED_BY_GATEWAY);
        return;
    }
    call->session->next_out = 1;
    call->session->expected = 2;
    memset(call->store, 0, PLAIN_STORE);
    accept_logon(call, 1);
}

static void logon(struct call *call)
{
    uint64_t expected = call->session->expected;
    if (call->n < expected) {
        send_logout(call, ENDED_BY_GATEWAY);
        return;
    }
    accept_logon(call, 0);
    if (call->n == expected) {
        call->session->expected++;
        return;
    }
    see(call);
    ask(call);
}

static uint32_t waiting(struct call *call)
{
    if (call->type != 'A')
        return closed(call->session, NOT_A_LOGON);
    if (call->n == 0 || wrong_comp_id(call) || verdict(call))
        return closed(call->session, BAD_LOGON);
    if (is_yes(FIRST(call, "141")))
        logon_with_reset(call);
    else
        logon(call);
    return 0;
}

/* ---- Active ------------------------------------------------------------------------------------------------------ */

/* What plain_verdict found. */
static void reject_found(struct call *call, uint32_t found)
{
    send_reject(call, found % 256 - 2, found / 256);
}

static void reject_comp_id(struct call *call, uint32_t tag)
{
    if (call->n == call->session->expected)
        call->session->expected++;
    send_reject(call, BAD_COMP_ID, tag);
    send_logout(call, ENDED_BY_GATEWAY);
}

static void bare_reset(struct call *call)
{
    uint32_t found = verdict(call);
    if (found) {
        reject_found(call, found);
        return;
    }
    uint64_t next = number_in(FIRST(call, "36"));
    if (next < call->session->expected) {
        send_reject(call, BAD_VALUE, 36);
        return;
    }
    call->session->expected = next;
    close_gap(call->session);
}

/* Starts the replay of a clean Resend Request: the tag for which it is rejected, or 0. */
static uint32_t serve(struct call *call)
{
    uint64_t last = call->session->next_out - 1, begin = number_in(FIRST(call, "7")), end = number_in(FIRST(call, "16"));
    if (begin > last)
        return 7;
    if (0 < end && end < begin)
        return 16;
    call->session->at = begin;
    call->session->to = end == 0 || end > last ? last : end;
    return 0;
}

static void too_high(struct call *call)
{
    if (call->type == '2' && !verdict(call))
        serve(call);
    see(call);
    if (is_to_ask(call))
        ask(call);
}

/* What is wrong with the times of a duplicate. */
static void judge_times(struct call *call)
{
    struct value original = FIRST(call, "122"), sending = FIRST(call, "52");
    if (!original.at)
        send_reject(call, REQUIRED_MISSING, 122);
    else if (!sending.at)
        send_reject(call, REQUIRED_MISSING, 52);
    else if (!is_time(sending))
        send_reject(call, BAD_FORM, 52);
    else if (!is_time(original))
        send_reject(call, BAD_FORM, 122);
    else if (is_later(original, sending))
        send_reject(call, BAD_SENDING_TIME, 122);
}

static void too_low(struct call *call)
{
    if (is_yes(FIRST(call, "43")))
        judge_times(call);
    else
        send_logout(call, ENDED_BY_GATEWAY);
}

static void fill_gap(struct call *call)
{
    uint64_t next = number_in(FIRST(call, "36"));
    if (next > call->n)
        call->session->expected = next;
    else
        send_reject(call, BAD_VALUE, 36);
}

static void resend(struct call *call)
{
    uint32_t tag = serve(call);
    if (tag)
        send_reject(call, BAD_VALUE, tag);
}

/* A report from a member, whatever its verdict. The Reject names no type. */
static void reject_report(struct call *call)
{
    call->session->expected++;
    call->type = 0;
    send_reject(call, BAD_TYPE, 35);
}

static void in_turn(struct call *call)
{
    if (call->type == 'E') {
        reject_report(call);
        return;
    }
    uint32_t found = verdict(call);
    call->session->expected++;
    if (found) {
        reject_found(call, found);
        return;
    }
    switch (call->type) {
    case '1': send_heartbeat(call, FIRST(call, "112")); break;
    case '2': resend(call); break;
    case '4': fill_gap(call); break;
    case '5': send_logout(call, LOGOUT_COMPLETE); break;
    case 'A': send_reject(call, OTHER, 35); break;
    case 'D': case 'F': call->delivered = 1; break;
    }
}

/* The first rule that fits. */
static void active(struct call *call)
{
    uint64_t expected = call->session->expected;
    if (call->n == 0) {
        send_logout(call, ENDED_BY_GATEWAY);
        return;
    }
    uint32_t tag = wrong_comp_id(call);
    if (tag)
        reject_comp_id(call, tag);
    else if (call->type == '4' && !is_yes(FIRST(call, "123")))
        bare_reset(call);
    else if (call->n > expected)
        too_high(call);
    else if (call->n < expected)
        too_low(call);
    else
        in_turn(call);
}

/* ---- The calls --------------------------------------------------------------------------------------------------- */

static int is_one_frame(const uint8_t *frame, size_t len)
{
    size_t skip;
    return len > 0 && plain_read(frame, len, &skip) == len;
}

static uint32_t refusal_of_step(const struct plain_session *session, const uint8_t *frame, size_t len, uint64_t time,
                                size_t room, size_t store_size)
{
    if (!in_range(session))
        return BAD_RECORD;
    if (store_size != PLAIN_STORE)
        return BAD_STORE;
    if (!is_one_frame(frame, len))
        return NOT_A_FRAME;
    if (time >= END_OF_TIME)
        return PAST_TIME;
    if (room < LEAST_ROOM)
        return NO_ROOM;
    if (session->status == CLOSED)
        return IS_CLOSED;
    return is_used_up(session) ? USED_UP : 0;
}

uint32_t plain_step(struct plain_session *session, const uint8_t *frame, size_t len, uint64_t time, uint8_t *buf,
                    size_t room, uint8_t *store, size_t store_size, uint64_t out[2])
{
    uint32_t refusal = refusal_of_step(session, frame, len, time, room, store_size);
    out[0] = 0;
    out[1] = 0;
    if (refusal)
        return refusal == USED_UP ? closed(session, refusal) : refusal;
    struct call call = { .session = session, .time = time, .reply = buf, .store = store };
    call.body = next_bar(frame + MARK_SIZE) + 1;
    call.end = frame + len - TRAILER_SIZE;
    call.type = type_at(call.body + 3);
    read_header(&call);
    if (session->status == WAITING)
        refusal = waiting(&call);
    else
        active(&call);
    if (!refusal && session->expected > session->highest)
        close_gap(session);
    out[0] = (uint64_t)call.delivered;
    out[1] = (uint64_t)(call.reply - buf);
    return refusal;
}
