/* The driver's requests on trade capture reports: report, report-values. */
#include "driver.h"

/* The tag of each place of a report's values. */
static const uint32_t tags[FIXGW_REPORT_TAGS] = {
    [FIXGW_REPORT_PLACE_TRADE_REPORT_ID] = FIXGW_TAG_TRADE_REPORT_ID,
    [FIXGW_REPORT_PLACE_TRD_TYPE] = FIXGW_TAG_TRD_TYPE,
    [FIXGW_REPORT_PLACE_TRANSACT_TIME] = FIXGW_TAG_TRANSACT_TIME,
    [FIXGW_REPORT_PLACE_LAST_QTY] = FIXGW_TAG_LAST_QTY,
    [FIXGW_REPORT_PLACE_LAST_PX] = FIXGW_TAG_LAST_PX,
    [FIXGW_REPORT_PLACE_SETTL_DATE] = FIXGW_TAG_SETTL_DATE,
    [FIXGW_REPORT_PLACE_MATCH_TYPE] = FIXGW_TAG_MATCH_TYPE,
    [FIXGW_REPORT_PLACE_SECURITY_ID] = FIXGW_TAG_SECURITY_ID,
    [FIXGW_REPORT_PLACE_SECURITY_ID_SOURCE] = FIXGW_TAG_SECURITY_ID_SOURCE,
    [FIXGW_REPORT_PLACE_SIDE] = FIXGW_TAG_SIDE,
    [FIXGW_REPORT_PLACE_SIDE_EXEC_ID] = FIXGW_TAG_SIDE_EXEC_ID,
};

/* ---- The values of a request ------------------------------------------------------------------------------------- */

/* The values of one report. Their bytes stand in the text one behind the other. */
struct report {
    uint64_t words[FIXGW_REPORT_WORDS];
    bool other;                             /* a tag was given for which the call has no place */
};

static struct text text;

static void put_bytes(uint64_t start_end[2], struct slice bytes)
{
    start_end[0] = text.len;
    append(&text, bytes.at, bytes.len);
    start_end[1] = text.len;
}

static bool give(struct report *report, uint64_t tag, bool as_decimal, const uint64_t value[2])
{
    size_t place = 0;
    while (place < FIXGW_REPORT_TAGS && tags[place] != tag)
        place++;
    if (place == FIXGW_REPORT_TAGS) {
        report->other = true;
        return true;
    }
    if (as_decimal != (bool)fixgw_report_is_decimal(place) || report->words[3 * place])
        return false;
    report->words[3 * place] = 1;
    memcpy(report->words + 3 * place + 1, value, 2 * sizeof value[0]);
    return true;
}

/* WHOLE.PLACES */
static bool decimal_of(const uint8_t *word, size_t len, uint64_t decimal[2])
{
    const uint8_t *point = memchr(word, '.', len);
    if (!point)
        return false;
    size_t front = (size_t)(point - word);
    return number_of(word, front, GREATEST_NUMBER, &decimal[0])
        && number_of(point + 1, len - front - 1, GREATEST_NUMBER, &decimal[1]);
}

/* One TAG=bBYTES or TAG=dWHOLE.PLACES. */
static bool take_pair(uint8_t *word, size_t len, struct report *report)
{
    uint64_t tag, value[2];
    uint8_t *equals = memchr(word, '=', len);
    if (!equals || !number_of(word, (size_t)(equals - word), GREATEST_NUMBER, &tag))
        return false;
    size_t before = (size_t)(equals - word) + 2;
    if (len < before)
        return false;
    if (equals[1] == 'd')
        return decimal_of(equals + 2, len - before, value) && give(report, tag, true, value);
    if (equals[1] != 'b' || !is_bytes(equals + 2, len - before))
        return false;
    put_bytes(value, decoded(equals + 2, len - before));
    return give(report, tag, false, value);
}

/* BYTES,BYTES,BYTES. A party behind the eighth has no words: it only counts. */
static bool take_party(uint8_t *at, size_t len, struct report *report)
{
    uint64_t party[6];
    for (size_t part = 0; part < 3; part++) {
        uint8_t *comma = memchr(at, ',', len);
        size_t size = comma ? (size_t)(comma - at) : len;
        if ((part < 2) != (comma != NULL) || !is_bytes(at, size))
            return false;
        put_bytes(party + 2 * part, decoded(at, size));
        at = comma ? comma + 1 : at;
        len -= comma ? size + 1 : 0;
    }
    uint64_t number = report->words[FIXGW_REPORT_WORD_PARTIES]++;
    if (number < FIXGW_REPORT_PARTIES)
        memcpy(report->words + FIXGW_REPORT_WORD_PARTY + 6 * number, party, sizeof party);
    return true;
}

/* A tag that a report does not have cannot be handed on. It is refusal 8 in its place among the others, and so is a
   ninth party, which is handed on instead. */
static bool take_values(struct words *in, struct report *report)
{
    static const char party[] = "party=";
    size_t front = sizeof party - 1, len;
    uint8_t *word;
    memset(report, 0, sizeof *report);
    text.len = 0;
    while (take_word(in, &word, &len)) {
        bool is_party = len >= front && memcmp(word, party, front) == 0;
        if (!(is_party ? take_party(word + front, len - front, report) : take_pair(word, len, report)))
            return false;
    }
    if (report->other && report->words[FIXGW_REPORT_WORD_PARTIES] <= FIXGW_REPORT_PARTIES)
        report->words[FIXGW_REPORT_WORD_PARTIES] = FIXGW_REPORT_PARTIES + 1;
    return true;
}

/* ---- The two requests -------------------------------------------------------------------------------------------- */

bool answer_report(struct words *in)
{
    uint64_t time, room, out[1] = { UNSET };
    struct record record;
    struct store store;
    struct report report;
    if (!take_number(in, GREATEST_NUMBER, &time) || !take_number(in, MOST_LENT, &room) || !take_record(in, &record)
        || !take_store(in, &store) || !take_values(in, &report))
        return false;
    lend(room);
    uint32_t refusal = fixgw_report(fixgw_comp_ids(&record.session), record.session.words, FIXGW_WORDS, report.words,
                                    text.at, text.len, time, lent, room, store.at, store.len, out);
    if (is_store_kept(&store, !refusal) && say_reply(refusal, room, out, &record) && !refusal)
        say_store(&store);
    return true;
}

static void say_span(const uint8_t *body, const uint64_t start_end[2])
{
    say_hex(body + start_end[0], start_end[1] - start_end[0]);
}

static void say_value(const uint8_t *body, size_t place, const uint64_t value[2])
{
    say(" ");
    say_number(tags[place]);
    if (fixgw_report_is_decimal(place)) {
        say("=d");
        say_number(value[0]);
        say(".");
        say_number(value[1]);
    } else {
        say("=b");
        say_span(body, value);
    }
}

static void say_values(const uint8_t *body, const uint64_t values[FIXGW_REPORT_WORDS])
{
    say("values");
    for (size_t place = 0; place < FIXGW_REPORT_TAGS; place++)
        if (values[3 * place])
            say_value(body, place, values + 3 * place + 1);
    for (size_t number = 0; number < fixgw_report_parties(values); number++) {
        const uint64_t *party = values + FIXGW_REPORT_WORD_PARTY + 6 * number;
        say(" party=");
        say_span(body, party);
        say(",");
        say_span(body, party + 2);
        say(",");
        say_span(body, party + 4);
    }
}

/* Whether the words of what a report does not have are 0; otherwise that is the answer. */
static bool absent_are_zero(const uint64_t values[FIXGW_REPORT_WORDS])
{
    size_t used = FIXGW_REPORT_WORD_PARTY + 6 * fixgw_report_parties(values);
    for (size_t place = 0; place < FIXGW_REPORT_TAGS; place++)
        if (!values[3 * place] && !are_zero(values + 3 * place, 3))
            return false;
    return are_zero(values + used, FIXGW_REPORT_WORDS - used);
}

bool answer_report_values(struct words *in)
{
    struct slice body;
    uint64_t values[FIXGW_REPORT_WORDS], out[3] = { UNSET, UNSET, UNSET };
    if (!take_bytes(in, &body) || !all_taken(in))
        return false;
    for (size_t i = 0; i < FIXGW_REPORT_WORDS; i++)
        values[i] = UNSET;
    uint32_t refusal = fixgw_report_values(body.at, body.len, values, out);
    bool is_report = !refusal && out[0] == 0;
    if ((refusal || is_report) && !are_zero(out, 3))
        return true;
    if (is_report ? !absent_are_zero(values) : !are_zero(values, FIXGW_REPORT_WORDS))
        return true;
    if (refusal)
        say_refusal(refusal);
    else if (is_report)
        say_values(body.at, values);
    else
        say_finding(out);
    return true;
}
