/* A plain C11 trade capture report of document 02, written and read back, over the verdict of plain.c. It shares nothing
   with the library. */
#include "plain_forms.h"

#define BODY_ROOM 768                       /* the longest body whose values are taken has 732 bytes */
#define MOST_WHOLE 999999999999999u
#define MOST_PLACES 8

/* Where the words of the values lie. */
enum {
    W571 = 0, W828 = 3, W60 = 6, W32 = 9, W31 = 12, W64 = 15, W574 = 18, W48 = 21, W22 = 24, W54 = 27, W1427 = 30,
    PARTIES = 33, PARTY = 34, PARTY_WORDS = 6, NOWHERE = PLAIN_WORDS
};

/* ---- Writing ----------------------------------------------------------------------------------------------------- */

/* What a report is made of. */
struct given {
    const uint64_t *values;
    const uint8_t *text;
    size_t text_size;
};

/* The bytes from values[word] to values[word + 1]; none for a place that the text does not have. */
static struct value bytes_at(const struct given *given, size_t word)
{
    uint64_t start = given->values[word], end = given->values[word + 1];
    if (start > end || end > given->text_size)
        return (struct value){ given->text, 0 };
    return (struct value){ given->text + start, (size_t)(end - start) };
}

/* A value of three words; none if it is not given. */
static struct value value_at(const struct given *given, size_t word)
{
    return given->values[word] ? bytes_at(given, word + 1) : (struct value){ given->text, 0 };
}

static int is_decimal(const struct given *given, size_t word)
{
    const uint64_t *value = given->values + word;
    return value[0] && value[1] <= MOST_WHOLE && value[2] <= MOST_PLACES;
}

static int are_parties(const struct given *given)
{
    uint64_t count = given->values[PARTIES];
    if (count > PLAIN_PARTIES)
        return 0;
    for (size_t word = PARTY; word < PARTY + PARTY_WORDS * count; word += PARTY_WORDS)
        if (!is_text(bytes_at(given, word)) || !is_one(bytes_at(given, word + 2), 'D')
            || !is_role(bytes_at(given, word + 4)))
            return 0;
    return 1;
}

/* Whether the dictionary takes all of the values. */
static int are_taken(const struct given *given)
{
    const uint64_t *values = given->values;
    struct value side = value_at(given, W54);
    return is_text(value_at(given, W571)) && is_trade_type(value_at(given, W828)) && is_time(value_at(given, W60))
        && is_decimal(given, W32) && is_decimal(given, W31) && (!values[W64] || is_date(value_at(given, W64)))
        && is_match_type(value_at(given, W574)) && is_text(value_at(given, W48)) && is_one(value_at(given, W22), '8')
        && (is_one(side, '1') || is_one(side, '2')) && (!values[W1427] || is_text(value_at(given, W1427)))
        && are_parties(given);
}

static uint8_t *put_bytes(uint8_t *to, const struct given *given, size_t word)
{
    uint64_t start = given->values[word];
    return put(to, given->text + start, (size_t)(given->values[word + 1] - start));
}

/* From the last digit to the first, with a 0 before the point if there is no other. */
static uint8_t *put_decimal(uint8_t *to, const uint64_t value[3])
{
    uint8_t digits[24];
    size_t at = sizeof digits;
    uint64_t whole = value[1], places = value[2], done = 0;
    do {
        if (done == places && places > 0)
            digits[--at] = '.';
        digits[--at] = (uint8_t)('0' + whole % 10);
        whole /= 10;
        done++;
    } while (whole > 0 || done <= places);
    return put(to, digits + at, sizeof digits - at);
}

static uint8_t *put_side(uint8_t *to, const struct given *given)
{
    uint64_t count = given->values[PARTIES];
    to = PUT(to, "\001552=1\00154=");
    to = put_bytes(to, given, W54 + 1);
    if (given->values[W1427]) {
        to = PUT(to, "\0011427=");
        to = put_bytes(to, given, W1427 + 1);
    }
    if (count > 0) {
        to = PUT(to, "\001453=");
        to = put_number(to, count);
    }
    for (size_t word = PARTY; word < PARTY + PARTY_WORDS * count; word += PARTY_WORDS) {
        to = PUT(to, "\001448=");
        to = put_bytes(to, given, word);
        to = PUT(to, "\001447=");
        to = put_bytes(to, given, word + 2);
        to = PUT(to, "\001452=");
        to = put_bytes(to, given, word + 4);
    }
    return to;
}

static uint8_t *put_trade(uint8_t *to, const struct given *given)
{
    to = PUT(to, "\001571=");
    to = put_bytes(to, given, W571 + 1);
    to = PUT(to, "\001828=");
    to = put_bytes(to, given, W828 + 1);
    to = PUT(to, "\00160=");
    to = put_bytes(to, given, W60 + 1);
    to = PUT(to, "\00132=");
    to = put_decimal(to, given->values + W32);
    to = PUT(to, "\00131=");
    to = put_decimal(to, given->values + W31);
    if (given->values[W64]) {
        to = PUT(to, "\00164=");
        to = put_bytes(to, given, W64 + 1);
    }
    to = PUT(to, "\001574=");
    to = put_bytes(to, given, W574 + 1);
    to = PUT(to, "\00148=");
    to = put_bytes(to, given, W48 + 1);
    to = PUT(to, "\00122=");
    return put_bytes(to, given, W22 + 1);
}

static uint32_t refusal_of_report(const struct plain_session *session, uint64_t time, size_t store_size)
{
    if (!in_range(session))
        return BAD_RECORD;
    if (session->at)
        return REPLAYING;
    if (store_size != PLAIN_STORE)
        return BAD_STORE;
    if (time >= END_OF_TIME)
        return PAST_TIME;
    if (session->status != ACTIVE)
        return IS_CLOSED;
    return is_used_up(session) ? USED_UP : 0;
}

uint32_t plain_report(struct plain_session *session, const uint64_t values[PLAIN_WORDS], const uint8_t *text,
                      size_t text_size, uint64_t time, uint8_t *buf, size_t room, uint8_t *store, size_t store_size,
                      uint64_t out[1])
{
    uint32_t refusal = refusal_of_report(session, time, store_size);
    struct given given = { values, text, text_size };
    uint8_t body[BODY_ROOM], *to;
    out[0] = 0;
    if (refusal)
        return refusal == USED_UP ? closed(session, refusal) : refusal;
    if (!are_taken(&given))
        return BAD_VALUES;
    to = PUT(body, "35=AE");
    to = put_comp_ids(to, session, session->next_out);
    to = PUT(to, "\00152=");
    to = put_time(to, time);
    to = put_trade(to, &given);
    to = put_side(to, &given);
    *to++ = BAR;
    size_t size = frame_size((size_t)(to - body));
    if (size > PLAIN_PLACE)
        return LONG_REPORT;
    if (size > room)
        return SHORT_BUFFER;
    put_frame(buf, body, (size_t)(to - body));
    plain_keep(session, store, buf, size);
    session->next_out++;
    session->last_sent = time;
    out[0] = size;
    return 0;
}

/* ---- Reading back ------------------------------------------------------------------------------------------------ */

/* Where the value of a tag lies; of a party's, in the first party. */
static size_t word_of(uint32_t tag)
{
    switch (tag) {
    case 571: return W571;
    case 828: return W828;
    case 60: return W60;
    case 32: return W32;
    case 31: return W31;
    case 64: return W64;
    case 574: return W574;
    case 48: return W48;
    case 22: return W22;
    case 54: return W54;
    case 1427: return W1427;
    case 448: return PARTY;
    case 447: return PARTY + 2;
    case 452: return PARTY + 4;
    default: return NOWHERE;
    }
}

/* The whole number and the places of a clean decimal. */
static void read_decimal(const uint8_t *s, const uint8_t *end, uint64_t value[3])
{
    uint64_t whole = 0;
    const uint8_t *point = end;
    for (; s < end; s++) {
        if (*s == '.')
            point = s + 1;
        else
            whole = 10 * whole + (uint64_t)(*s - '0');
    }
    value[0] = 1;
    value[1] = whole;
    value[2] = (uint64_t)(end - point);
}

static void read_value(const uint8_t *body, const uint8_t *value, const uint8_t *end, uint32_t tag, uint64_t *values)
{
    size_t word = word_of(tag);
    if (word == NOWHERE)
        return;
    if (word == W32 || word == W31) {
        read_decimal(value, end, values + word);
        return;
    }
    if (tag == 448)
        values[PARTIES]++;
    if (word >= PARTY)
        word += PARTY_WORDS * (values[PARTIES] - 1);
    else
        values[word++] = 1;
    values[word] = (uint64_t)(value - body);
    values[word + 1] = (uint64_t)(end - body);
}

/* A clean body: all of its parts are fields. They are short, so that a plain loop finds their end the soonest. */
static void read_values(const uint8_t *body, size_t n, uint64_t values[PLAIN_WORDS])
{
    for (const uint8_t *p = body; p < body + n; p++) {
        uint32_t tag = 0;
        while (*p != '=')
            tag = 10 * tag + (uint32_t)(*p++ - '0');
        const uint8_t *value = ++p;
        while (*p != BAR)
            p++;
        read_value(body, value, p, tag, values);
    }
}

uint32_t plain_report_values(const uint8_t *body, size_t n, uint64_t values[PLAIN_WORDS], uint64_t out[3])
{
    uint32_t found = plain_verdict(body, n);
    for (size_t i = 0; i < PLAIN_WORDS; i++)
        values[i] = 0;
    out[0] = out[1] = out[2] = 0;
    if (found == 1)
        return NOT_A_FRAME;
    if (found == 0 && memcmp(body, "35=AE\001", 6) != 0)
        found = 2 + 11 + 256 * 35;
    if (found) {
        out[0] = 1;
        out[1] = found % 256 - 2;
        out[2] = found / 256;
        return 0;
    }
    read_values(body, n, values);
    return 0;
}
