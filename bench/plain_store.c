/* A plain C11 store of document 02: which report a place holds, where a new one goes, and the replay call. A place is read
   whole only where its number makes it matter. It shares nothing with the library. */
#include "plain_forms.h"

#define NUMBER_PLACE 34                     /* of 34's digits in a report, both CompIDs apart */
#define LENGTH_PLACE MARK_SIZE              /* a report's body has three digits of length */
#define STAMP_SIZE 24
#define AGAIN_ROOM 640                      /* a body of at most 522 bytes, and what a CompID is put with beyond it */

/* ---- One place --------------------------------------------------------------------------------------------------- */

/* The number that a report would have here; 0 for no number. */
static inline uint32_t number_at(const uint8_t *digits)
{
    uint32_t total = 0;
    size_t i = 0;
    if ((uint8_t)(digits[0] - '1') > 8)
        return 0;
    for (; i < MOST_DIGITS && is_digit(digits[i]); i++)
        total = 10 * total + (uint32_t)(digits[i] - '0');
    return digits[i] == BAR ? total : 0;
}

/* A walk over the fields of a body. Each step gives the place behind what it took; nowhere, which none goes on from, if
   that does not stand there. A label is never looked for behind the trailer's `10=`, which none has in it. */
#define LABEL(p, text) label(p, text, sizeof text - 1)

static inline const uint8_t *label(const uint8_t *p, const char *text, size_t size)
{
    return p && memcmp(p, text, size) == 0 ? p + size : 0;
}

static inline struct value value_at(const uint8_t *p, const uint8_t *end)
{
    const uint8_t *bar = p;
    while (bar < end && *bar != BAR)
        bar++;
    return (struct value){ p, bar < end ? (size_t)(bar - p) : 0 };
}

static inline int is_short(struct value value)
{
    return value.size <= 32;
}

static inline int is_decimal(struct value value)
{
    return check_decimal(value.at, value.size) == 0;
}

static inline int is_eight(struct value value)
{
    return is_one(value, '8');
}

static inline int is_d(struct value value)
{
    return is_one(value, 'D');
}

static inline int is_side(struct value value)
{
    return is_one(value, '1') || is_one(value, '2');
}

/* Behind a value of a form and its `|`; an empty one is of none. */
static inline const uint8_t *take(const uint8_t *p, const uint8_t *end, int (*is)(struct value))
{
    if (!p)
        return 0;
    struct value value = value_at(p, end);
    return value.size > 0 && is(value) ? value.at + value.size + 1 : 0;
}

static const uint8_t *take_trade(const uint8_t *p, const uint8_t *end)
{
    p = take(LABEL(p, "571="), end, is_short);
    p = take(LABEL(p, "828="), end, is_trade_type);
    p = take(LABEL(p, "60="), end, is_time);
    p = take(LABEL(p, "32="), end, is_decimal);
    p = take(LABEL(p, "31="), end, is_decimal);
    if (p && memcmp(p, "64=", 3) == 0)
        p = take(p + 3, end, is_date);
    p = take(LABEL(p, "574="), end, is_match_type);
    p = take(LABEL(p, "48="), end, is_short);
    return take(LABEL(p, "22="), end, is_eight);
}

static const uint8_t *take_side(const uint8_t *p, const uint8_t *end)
{
    p = LABEL(p, "552=1\001");
    p = take(LABEL(p, "54="), end, is_side);
    if (p && memcmp(p, "1427=", 5) == 0)
        p = take(p + 5, end, is_short);
    if (!p || p == end)
        return p;
    p = LABEL(p, "453=");
    if (!p || p[0] < '1' || p[0] > '8' || p[1] != BAR)
        return 0;
    size_t parties = (size_t)(p[0] - '0');
    for (p += 2; p && parties > 0; parties--) {
        p = take(LABEL(p, "448="), end, is_short);
        p = take(LABEL(p, "447="), end, is_d);
        p = take(LABEL(p, "452="), end, is_role);
    }
    return p;
}

/* The bytes of the frame that begins here, by its three digits of length; 0 for what cannot be a report's. */
static size_t size_at(const uint8_t *digits)
{
    if (!all_digits(digits, 3) || digits[0] == '0' || digits[3] != BAR)
        return 0;
    size_t size = MARK_SIZE + 3 + 1 + number(digits, 3) + TRAILER_SIZE;
    return size <= PLAIN_PLACE ? size : 0;
}

static int is_header(const uint8_t *place, const struct plain_session *session)
{
    const uint8_t *p = place + LENGTH_PLACE + 4;
    if (memcmp(place, MARK, MARK_SIZE) != 0 || memcmp(p, "35=AE\00149=", 9) != 0)
        return 0;
    p += 9;
    if (memcmp(p, session->ours, session->ours_size) != 0)
        return 0;
    p += session->ours_size;
    if (memcmp(p, "\00156=", 4) != 0 || memcmp(p + 4, session->peer, session->peer_size) != 0)
        return 0;
    return memcmp(p + 4 + session->peer_size, "\00134=", 4) == 0;
}

/* 52 as we write it: six decimals, from 1970 on, no second 60. */
static int is_stamp(const uint8_t *s)
{
    return check_time(s, STAMP_SIZE) == 0 && number(s, 4) >= 1970 && s[15] < '6' && s[STAMP_SIZE] == BAR;
}

/* The sum is right, and zeros stand behind. */
static int is_ended(const uint8_t *place, size_t size)
{
    const uint8_t *trailer = place + size - TRAILER_SIZE;
    uint8_t sum = plain_sum(place, size - TRAILER_SIZE), rest = 0;
    for (size_t i = size; i < PLAIN_PLACE; i++)
        rest |= place[i];
    return trailer[3] == '0' + sum / 100 && trailer[4] == '0' + sum / 10 % 10 && trailer[5] == '0' + sum % 10
        && trailer[6] == BAR && rest == 0;
}

/* Where 52 begins in a report of this number, its label apart. */
static const uint8_t *stamp_in(const uint8_t *place, const struct plain_session *session, uint32_t number)
{
    const uint8_t *p = place + NUMBER_PLACE + session->ours_size + session->peer_size + sizeof "|52=" - 1;
    for (; number > 0; number /= 10)
        p++;
    return p;
}

/* The number of the report that a place holds as our call writes it, with zeros behind; 0 for none. */
static uint32_t held(const uint8_t *place, const struct plain_session *session)
{
    if (!is_header(place, session))
        return 0;
    uint32_t number = number_at(place + NUMBER_PLACE + session->ours_size + session->peer_size);
    size_t size = size_at(place + LENGTH_PLACE);
    if (number == 0 || number > LAST_USABLE || size == 0)
        return 0;
    const uint8_t *stamp = stamp_in(place, session, number), *end = place + size - TRAILER_SIZE;
    if (stamp + STAMP_SIZE >= end || memcmp(stamp - 3, "52=", 3) != 0 || !is_stamp(stamp) || memcmp(end, "10=", 3) != 0)
        return 0;
    const uint8_t *p = take_side(take_trade(stamp + STAMP_SIZE + 1, end), end);
    return p == end && is_ended(place, size) ? number : 0;
}

/* ---- Keeping ----------------------------------------------------------------------------------------------------- */

static int is_met(const uint32_t *numbers, size_t count, uint32_t number)
{
    int met = 0;
    for (size_t i = 0; i < count; i++)
        met |= numbers[i] == number;
    return met;
}

/* The first empty place, else the lowest number's. A number above all before it is no second one. */
static size_t place_for_new(const struct plain_session *session, const uint8_t *store)
{
    uint32_t numbers[PLAIN_PLACES], greatest = 0;
    size_t lowest = 0;
    for (size_t i = 0; i < PLAIN_PLACES; i++) {
        uint32_t number = held(store + PLAIN_PLACE * i, session);
        if (number == 0 || (number <= greatest && is_met(numbers, i, number)))
            return i;
        numbers[i] = number;
        greatest = number > greatest ? number : greatest;
        lowest = number < numbers[lowest] ? i : lowest;
    }
    return lowest;
}

void plain_keep(const struct plain_session *session, uint8_t *store, const uint8_t *report, size_t size)
{
    uint8_t *place = store + PLAIN_PLACE * place_for_new(session, store);
    memcpy(place, report, size);
    memset(place + size, 0, PLAIN_PLACE - size);
}

/* ---- Replaying --------------------------------------------------------------------------------------------------- */

/* From 571 on as it was kept. */
static size_t put_again(const struct plain_session *session, const uint8_t *place, uint64_t time, uint8_t *buf)
{
    const uint8_t *stamp = stamp_in(place, session, (uint32_t)session->at), *own = stamp + STAMP_SIZE;
    uint8_t body[AGAIN_ROOM], *to = PUT(body, "35=AE");
    to = put_comp_ids(to, session, session->at);
    to = PUT(to, "\00143=Y\00152=");
    to = put_time(to, time);
    to = PUT(to, "\001122=");
    to = put(to, stamp, STAMP_SIZE);
    to = put(to, own, (size_t)(place + size_at(place + LENGTH_PLACE) - TRAILER_SIZE - own));
    return (size_t)(put_frame(buf, body, (size_t)(to - body)) - buf);
}

static size_t put_gap_fill(const struct plain_session *session, uint64_t next, uint64_t time, uint8_t *buf)
{
    uint8_t *to = put_ids(body_in(buf), session, '4', session->at);
    to = PUT(to, "\00143=Y\00152=");
    const uint8_t *stamp = to;
    to = put_time(to, time);
    to = PUT(to, "\001122=");
    to = put(to, stamp, STAMP_SIZE);
    to = PUT(to, "\001123=Y\00136=");
    to = put_number(to, next);
    *to++ = BAR;
    return (size_t)(put_around(buf, to) - buf);
}

/* Where the run of numbers ends that begins at the place of a replay: before the lowest report behind it, else at the last
   number asked for. The lowest is held to its form first; one that does not stand is left out. */
static uint64_t end_of_run(const struct plain_session *session, const uint8_t *store, uint32_t numbers[PLAIN_PLACES])
{
    uint32_t next = (uint32_t)session->at + 1;
    for (;;) {
        uint32_t least = (uint32_t)session->to + 1 - next;
        size_t lowest = PLAIN_PLACES;
        for (size_t i = 0; i < PLAIN_PLACES; i++)
            if (numbers[i] - next < least) {
                least = numbers[i] - next;
                lowest = i;
            }
        if (lowest == PLAIN_PLACES || held(store + PLAIN_PLACE * lowest, session))
            return next + least - 1;
        numbers[lowest] = 0;
    }
}

/* The message at the place of a replay, and the last number that it covers. */
static size_t put_next(const struct plain_session *session, const uint8_t *store, uint64_t time, uint8_t *buf,
                       uint64_t *last)
{
    const uint8_t *digits = store + NUMBER_PLACE + session->ours_size + session->peer_size;
    uint32_t numbers[PLAIN_PLACES], at = (uint32_t)session->at;
    *last = at;
    for (size_t i = 0; i < PLAIN_PLACES; i++) {
        numbers[i] = number_at(digits + PLAIN_PLACE * i);
        if (numbers[i] == at && held(store + PLAIN_PLACE * i, session))
            return put_again(session, store + PLAIN_PLACE * i, time, buf);
    }
    *last = end_of_run(session, store, numbers);
    return put_gap_fill(session, *last + 1, time, buf);
}

uint32_t plain_replay(struct plain_session *session, uint64_t time, uint8_t *buf, size_t room, const uint8_t *store,
                      size_t store_size, uint64_t out[1])
{
    uint64_t last;
    out[0] = 0;
    if (!in_range(session))
        return BAD_RECORD;
    if (store_size != PLAIN_STORE)
        return BAD_STORE;
    if (time >= END_OF_TIME)
        return PAST_TIME;
    if (room < LEAST_ROOM)
        return NO_ROOM;
    if (session->at == 0)
        return 0;
    out[0] = put_next(session, store, time, buf, &last);
    session->last_sent = time;
    session->at = last < session->to ? last + 1 : 0;
    session->to = session->at ? session->to : 0;
    return 0;
}
