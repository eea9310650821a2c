/* What plain_session.c, plain_report.c and plain_store.c share, inline in each: the refusals, the record's ranges, and how
   a message is put. */
#ifndef PLAIN_INSIDE_H
#define PLAIN_INSIDE_H

#include "plain.h"

#define BAR 1
#define MARK "8=FIXT.1.1\0019="
#define MARK_SIZE (sizeof MARK - 1)
#define MOST_DIGITS 9                       /* of a number that is written */
#define LAST_USABLE 999999990
#define LEAST_ROOM 600
#define TRAILER_SIZE 7
#define END_OF_TIME 253402300800000000u
#define RE_ASK 10000000                     /* microseconds after which an open gap is asked for again */
#define LEAST_BODY 5
#define GREATEST_BODY 2048

enum { WAITING, ACTIVE, CLOSED };

/* The refusals. */
enum {
    IS_CLOSED = 2, NOT_A_LOGON, BAD_LOGON, USED_UP, NO_ROOM, PAST_TIME, BAD_VALUES, SHORT_BUFFER, NOT_A_FRAME,
    BAD_RECORD, LONG_REPORT, REPLAYING, BAD_STORE
};

/* ---- The record -------------------------------------------------------------------------------------------------- */

static inline uint32_t closed(struct plain_session *session, uint32_t refusal)
{
    session->status = CLOSED;
    session->at = session->to = 0;
    return refusal;
}

static inline int is_comp_id(const uint8_t *id, uint64_t size)
{
    if (size < 1 || size > PLAIN_COMP_ID)
        return 0;
    for (size_t i = 0; i < size; i++)
        if (id[i] == BAR)
            return 0;
    return 1;
}

static inline int is_numbered(uint64_t number)
{
    return number >= 1 && number <= 999999999;
}

static inline int is_placed(const struct plain_session *session)
{
    if (session->at == 0)
        return session->to == 0;
    return session->status == ACTIVE && session->at <= session->to && session->to < session->next_out;
}

static inline int is_gap(const struct plain_session *session)
{
    if (session->is_open == 0)
        return (session->open_for | session->highest | session->asked) == 0;
    return session->is_open == 1 && is_numbered(session->open_for) && is_numbered(session->highest);
}

static inline int in_range(const struct plain_session *session)
{
    return is_comp_id(session->ours, session->ours_size) && is_comp_id(session->peer, session->peer_size)
        && session->status <= CLOSED && is_numbered(session->expected) && is_numbered(session->next_out)
        && session->heartbeat >= 1 && session->heartbeat <= 60 && is_placed(session) && is_gap(session);
}

static inline int is_used_up(const struct plain_session *session)
{
    return session->expected > LAST_USABLE || session->next_out > LAST_USABLE;
}

/* ---- Bytes ------------------------------------------------------------------------------------------------------- */

static inline int is_body(const uint8_t *s, size_t n)
{
    return n >= LEAST_BODY && n <= GREATEST_BODY && memcmp(s, "35=", 3) == 0 && s[n - 1] == BAR;
}

/* For what is short: no way out, so that the compiler takes sixteen bytes at once. */
static inline int has_bar(const uint8_t *s, size_t n)
{
    unsigned bars = 0;
    for (size_t i = 0; i < n; i++)
        bars |= s[i] == BAR;
    return bars != 0;
}

/* ---- Writing ----------------------------------------------------------------------------------------------------- */

/* A field is written with the `|` of the one before it; the last one's comes when the message goes out. */
#define PUT(to, text) put(to, (const uint8_t *)(text), sizeof text - 1)

static inline uint8_t *put(uint8_t *to, const uint8_t *s, size_t n)
{
    memcpy(to, s, n);
    return to + n;
}

/* All eleven bytes at once; what is written next covers those behind the CompID. */
static inline uint8_t *put_comp_id(uint8_t *to, const uint8_t id[PLAIN_COMP_ID], size_t size)
{
    memcpy(to, id, PLAIN_COMP_ID);
    return to + size;
}

/* A number of at most nine digits. */
static inline uint8_t *put_number(uint8_t *to, uint64_t number)
{
    uint32_t rest = (uint32_t)number;
    size_t width = 1;
    for (uint32_t n = rest; n >= 10; n /= 10)
        width++;
    for (size_t i = width; i-- > 0; rest /= 10)
        to[i] = (uint8_t)('0' + rest % 10);
    return to + width;
}

/* Two digits. */
static inline uint8_t *put_pair(uint8_t *to, uint32_t number)
{
    static const char pairs[] = "0001020304050607080910111213141516171819202122232425262728293031323334353637383940"
        "414243444546474849505152535455565758596061626364656667686970717273747576777879808182838485868788899091929394"
        "9596979899";
    return put(to, (const uint8_t *)pairs + 2 * number, 2);
}

/* YYYYMMDD of a day since 1970. Years are counted from 1 March, so that the leap day is a year's last. */
static inline uint8_t *put_date(uint8_t *to, uint32_t day)
{
    uint32_t since = day + 719468, era = since / 146097, of_era = since % 146097;
    uint32_t year_of_era = (of_era - of_era / 1460 + of_era / 36524 - of_era / 146096) / 365;
    uint32_t of_year = of_era - (365 * year_of_era + year_of_era / 4 - year_of_era / 100);
    uint32_t from_march = (5 * of_year + 2) / 153;
    uint32_t month = from_march < 10 ? from_march + 3 : from_march - 9;
    uint32_t year = 400 * era + year_of_era + (month < 3);
    to = put_pair(to, year / 100);
    to = put_pair(to, year % 100);
    to = put_pair(to, month);
    return put_pair(to, of_year - (153 * from_march + 2) / 5 + 1);
}

/* YYYYMMDD-HH:MM:SS.ssssss */
static inline uint8_t *put_time(uint8_t *to, uint64_t time)
{
    uint64_t seconds = time / 1000000;
    uint32_t micros = (uint32_t)(time % 1000000), of_day = (uint32_t)(seconds % 86400);
    to = put_date(to, (uint32_t)(seconds / 86400));
    *to++ = '-';
    to = put_pair(to, of_day / 3600);
    *to++ = ':';
    to = put_pair(to, of_day / 60 % 60);
    *to++ = ':';
    to = put_pair(to, of_day % 60);
    *to++ = '.';
    to = put_pair(to, micros / 10000);
    to = put_pair(to, micros / 100 % 100);
    return put_pair(to, micros % 100);
}

/* 49, 56 and 34. */
static inline uint8_t *put_comp_ids(uint8_t *to, const struct plain_session *session, uint64_t number)
{
    to = PUT(to, "\00149=");
    to = put_comp_id(to, session->ours, session->ours_size);
    to = PUT(to, "\00156=");
    to = put_comp_id(to, session->peer, session->peer_size);
    to = PUT(to, "\00134=");
    return put_number(to, number);
}

/* 35, 49, 56 and 34. */
static inline uint8_t *put_ids(uint8_t *to, const struct plain_session *session, char type, uint64_t number)
{
    to = PUT(to, "35=");
    *to++ = (uint8_t)type;
    return put_comp_ids(to, session, number);
}

/* Mark, length with its `|`, body and trailer. A body that is written has two or three digits of length. */
static inline size_t frame_size(size_t body)
{
    return MARK_SIZE + (body < 100 ? 2 : 3) + 1 + body + TRAILER_SIZE;
}

/* The trailer behind a frame's body; where it ends. */
static inline uint8_t *put_trailer(const uint8_t *front, uint8_t *to)
{
    uint8_t sum = plain_sum(front, (size_t)(to - front));
    to = PUT(to, "10=");
    *to++ = (uint8_t)('0' + sum / 100);
    to = put_pair(to, sum % 100);
    *to++ = BAR;
    return to;
}

/* The frame around a body, which ends with `|`; where it ends. */
static inline uint8_t *put_frame(uint8_t *front, const uint8_t *body, size_t size)
{
    uint8_t *to = PUT(front, MARK);
    to = put_number(to, size);
    *to++ = BAR;
    return put_trailer(front, put(to, body, size));
}

/* Where the body of a message is put straight away, with room for two digits of length before it. */
static inline uint8_t *body_in(uint8_t *front)
{
    return front + MARK_SIZE + sizeof "50|" - 1;
}

/* The frame around a body that stands there and ends at `end`; a long one makes room for a digit more. */
static inline uint8_t *put_around(uint8_t *front, uint8_t *end)
{
    uint8_t *body = body_in(front), *to = PUT(front, MARK);
    size_t size = (size_t)(end - body);
    if (size >= 100) {
        memmove(body + 1, body, size);
        *to++ = (uint8_t)('0' + size / 100);
        end++;
    }
    to = put_pair(to, (uint32_t)size % 100);
    *to = BAR;
    return put_trailer(front, end);
}

#endif
