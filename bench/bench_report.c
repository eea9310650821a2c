/* Reports, written and read back, on both sides. */
#include "bench.h"

static ALIGNED struct fixgw_report_draft draft;

static void give(struct fixgw_report_draft *to, uint32_t tag, const char *text)
{
    fixgw_report_give(to, tag, (const uint8_t *)text, strlen(text));
}

static void add_party(struct fixgw_report_draft *to, const char *id, const char *source, const char *role)
{
    fixgw_report_add_party(to, (const uint8_t *)id, strlen(id), (const uint8_t *)source, strlen(source),
                           (const uint8_t *)role, strlen(role));
}

/* The values of REPORT_TRADE and REPORT_SIDE. */
static void fill(struct fixgw_report_draft *to)
{
    fixgw_report_empty(to);
    give(to, FIXGW_TAG_TRADE_REPORT_ID, "TR-20240102-000001");
    give(to, FIXGW_TAG_TRD_TYPE, "0");
    give(to, FIXGW_TAG_TRANSACT_TIME, "20240102-09:29:59.999999");
    fixgw_report_give_decimal(to, FIXGW_TAG_LAST_QTY, 125050, 2);
    fixgw_report_give_decimal(to, FIXGW_TAG_LAST_PX, 1012575, 4);
    give(to, FIXGW_TAG_SETTL_DATE, "20240104");
    give(to, FIXGW_TAG_MATCH_TYPE, "4");
    give(to, FIXGW_TAG_SECURITY_ID, "GB00BH4HKS39");
    give(to, FIXGW_TAG_SECURITY_ID_SOURCE, "8");
    give(to, FIXGW_TAG_SIDE, "1");
    give(to, FIXGW_TAG_SIDE_EXEC_ID, "EX-20240102-000001");
}

void make_draft(void)
{
    fill(&draft);
    add_party(&draft, "MEMBERFIRM", "D", "1");
    add_party(&draft, "TRADER-0000007", "D", "12");
}

/* ---- What is measured -------------------------------------------------------------------------------------------- */

uint64_t report_on(struct fixgw_session *session, uint8_t store[FIXGW_STORE])
{
    static ALIGNED uint8_t reply[FIXGW_REPORT_MOST];
    uint64_t out[1];
    uint32_t refusal = fixgw_session_report(session, &draft, CALL_TIME, reply, sizeof reply, store, FIXGW_STORE, out);
    return refusal + out[0];
}

uint64_t plain_report_on(struct plain_session *session, uint8_t store[FIXGW_STORE])
{
    static ALIGNED uint8_t reply[FIXGW_REPORT_MOST];
    uint64_t out[1];
    uint32_t refusal = plain_report(session, draft.values, draft.text, draft.text_len, CALL_TIME, reply, sizeof reply,
                                    store, FIXGW_STORE, out);
    return refusal + out[0];
}

/* The report of the time before counts as none. */
void report_ours(void)
{
    our_store[0] = 0;
    sink += report_on(set_back(&active), our_store);
}

void report_plain(void)
{
    plain_store[0] = 0;
    sink += plain_report_on(set_back_plain(&plain_active), plain_store);
}

void values_ours(const uint8_t *body, size_t len)
{
    static uint64_t values[FIXGW_REPORT_WORDS];
    uint64_t out[3];
    sink += fixgw_report_values(body, len, values, out) + out[0];
}

void values_plain(const uint8_t *body, size_t len)
{
    static uint64_t values[FIXGW_REPORT_WORDS];
    uint64_t out[3];
    sink += plain_report_values(body, len, values, out) + out[0];
}

/* ---- Both sides answer alike: reports ---------------------------------------------------------------------------- */

/* Gives the length of the report. */
static uint64_t check_stored(const char *what, const struct fixgw_session *session,
                             const struct fixgw_report_draft *given, uint64_t time, size_t room, size_t stored)
{
    uint64_t out[1], plain_out[1];
    struct pair pair = pair_on(session, what);
    uint32_t refusal = fixgw_session_report(&pair.ours, given, time, pair.our_reply, room, our_store, stored, out);
    uint32_t plain_refusal = plain_report(&pair.plain, given->values, given->text, given->text_len, time,
                                          pair.plain_reply, room, plain_store, stored, plain_out);
    insist(out[0] == plain_out[0], what);
    check_pair(&pair, refusal, plain_refusal, out[0]);
    return out[0];
}

static uint64_t check_report(const char *what, const struct fixgw_session *session,
                             const struct fixgw_report_draft *given, uint64_t time, size_t room)
{
    return check_stored(what, session, given, time, room, FIXGW_STORE);
}

void check_report_on(const char *what, const struct fixgw_session *session)
{
    check_report(what, session, &draft, CALL_TIME, FIXGW_REPORT_MOST);
}

void fill_store(uint8_t store[FIXGW_STORE], uint64_t first, uint64_t last)
{
    static ALIGNED uint8_t reply[FIXGW_REPORT_MOST];
    uint64_t out[1];
    struct fixgw_session session = active;
    for (session.words[FIXGW_WORD_NEXT_OUT] = first; session.words[FIXGW_WORD_NEXT_OUT] <= last;)
        insist(fixgw_session_report(&session, &draft, CALL_TIME, reply, sizeof reply, store, FIXGW_STORE, out) == 0,
               "the reports of a store");
}

/* The good report, one of its words changed: what is not given, places outside the text, decimals and parties at their
   limits. */
static void check_words(const struct fixgw_session *session)
{
    static const uint64_t others[] = { 0, 1, 8, 9, 40, 999999999999999, 1000000000000000, 18446744073709551615u };
    for (size_t word = 0; word < FIXGW_REPORT_WORDS; word++)
        for (size_t i = 0; i < sizeof others / sizeof others[0]; i++) {
            struct fixgw_report_draft changed = draft;
            changed.values[word] = others[i];
            check_report("a report with one word changed", session, &changed, CALL_TIME, FIXGW_REPORT_MOST);
        }
}

#define LONGEST "ABCDEFGHIJKLMNOPQRSTUVWXYZ012345"

static const struct {
    uint32_t tag;
    const char *text;
} texts[] = {
    { 571, "" }, { 571, LONGEST }, { 571, LONGEST "6" }, { 571, "A\001" }, { 571, "A=B" }, { 828, "54" },
    { 828, "99" }, { 828, "1" }, { 828, "099" }, { 60, "20240102-09:30:00" }, { 60, "20240102-09:30:60.123" },
    { 60, "20240230-09:30:00" }, { 60, "20240102" }, { 64, "20240229" }, { 64, "20230229" }, { 64, "2024010" },
    { 64, "" }, { 574, "2" }, { 574, "7" }, { 574, "22" }, { 574, "3" }, { 48, LONGEST }, { 48, "|" }, { 48, "\001" },
    { 22, "4" }, { 22, "88" }, { 54, "2" }, { 54, "3" }, { 1427, LONGEST }, { 1427, LONGEST LONGEST }, { 1427, "" },
    { 31, "1" }, { 58, "no tag of a report" },
};

static void check_texts(const struct fixgw_session *session)
{
    for (size_t i = 0; i < sizeof texts / sizeof texts[0]; i++) {
        struct fixgw_report_draft changed = draft;
        give(&changed, texts[i].tag, texts[i].text);
        check_report(texts[i].text, session, &changed, CALL_TIME, FIXGW_REPORT_MOST);
    }
}

/* Up to nine parties, and with long names the lengths around the greatest; and each of them in buffers around its
   length. */
static void check_parties(const struct fixgw_session *session, const char *id, const char *source, const char *role)
{
    struct fixgw_report_draft more;
    fill(&more);
    for (size_t count = 0; count <= FIXGW_REPORT_PARTIES + 1; count++) {
        uint64_t len = check_report(id, session, &more, CALL_TIME, FIXGW_REPORT_MOST);
        if (len > 0) {
            check_report(id, session, &more, CALL_TIME, len);
            check_report(id, session, &more, CALL_TIME, len - 1);
        }
        check_report(id, session, &more, CALL_TIME, 0);
        add_party(&more, id, source, role);
    }
}

/* Reports whose lengths rise by one, past the greatest. */
static void check_lengths(const struct fixgw_session *session)
{
    struct fixgw_report_draft more = draft;
    char id[33] = "";
    for (size_t i = 0; i < 4; i++)
        add_party(&more, LONGEST, "D", "17");
    for (size_t len = 1; len <= 32; len++) {
        id[len - 1] = 'A';
        struct fixgw_report_draft longer = more;
        add_party(&longer, id, "D", "1");
        check_report("a report around the greatest length", session, &longer, CALL_TIME, FIXGW_REPORT_MOST);
    }
}

void check_reports(const struct fixgw_session *session)
{
    struct fixgw_report_draft empty;
    fixgw_report_empty(&empty);
    check_report("a report", session, &draft, CALL_TIME, FIXGW_REPORT_MOST);
    check_stored("a report with a short store", session, &draft, FIXGW_END_OF_TIME, 0, FIXGW_STORE - 1);
    check_stored("a report without a store", session, &draft, CALL_TIME, FIXGW_REPORT_MOST, 0);
    check_report("a report at the first time", session, &draft, 0, FIXGW_REPORT_MOST);
    check_report("a report past all time", session, &draft, FIXGW_END_OF_TIME, 0);
    check_report("a report at the end of time", session, &draft, FIXGW_END_OF_TIME - 1, FIXGW_REPORT_MOST);
    check_report("a report without values", session, &empty, CALL_TIME, 0);
    check_words(session);
    check_texts(session);
    check_parties(session, "P", "D", "76");
    check_parties(session, LONGEST, "D", "12");
    check_parties(session, LONGEST "6", "D", "12");
    check_parties(session, "", "D", "3");
    check_parties(session, "P", "E", "3");
    check_parties(session, "P", "D", "2");
    check_lengths(session);
}

/* ---- Both sides answer alike: bodies ----------------------------------------------------------------------------- */

void check_values(const char *text)
{
    static struct bytes frame;
    uint64_t values[FIXGW_REPORT_WORDS], plain[FIXGW_REPORT_WORDS], out[3], plain_out[3];
    make_frame(&frame, text);
    const uint8_t *body = frame.at + frame.body;
    uint32_t found = plain_verdict(body, frame.body_len);
    insist(fixgw_verdict(body, frame.body_len, out) == (found == 1 ? FIXGW_REFUSED_NOT_A_FRAME : FIXGW_OK), text);
    insist(found <= 1 ? out[0] == 0 : out[0] == 1 && out[1] == found % 256 - 2 && out[2] == found / 256, text);
    uint32_t refusal = fixgw_report_values(body, frame.body_len, values, out);
    insist(refusal == plain_report_values(body, frame.body_len, plain, plain_out), text);
    insist(memcmp(out, plain_out, sizeof out) == 0 && memcmp(values, plain, sizeof values) == 0, text);
}

#define AE REPORT_HEADER
#define TRADE "571=T|828=0|60=20240102-09:30:00|32=5|31=7|574=4|48=S|22=8|"
#define PRICED(price) AE "571=T|828=0|60=20240102-09:30:00|32=5|31=" price "|574=4|48=S|22=8|552=1|54=1|"

static const char *const report_bodies[] = {
    AE REPORT_TRADE REPORT_SIDE REPORT_PARTIES, AE REPORT_SIDE REPORT_PARTIES REPORT_TRADE, AE TRADE "552=1|54=1|",
    AE TRADE "552=1|54=2|453=1|448=P|452=1|447=D|1427=E|", AE TRADE "552=1|", AE TRADE, AE "552=1|54=1|",
    AE TRADE "552=2|54=1|54=2|", AE TRADE "552=0|", AE TRADE "552=x|54=1|", AE TRADE "552=1|54=1|54=2|",
    AE TRADE "552=1|54=1|453=1|448=P|447=D|452=1|54=2|", AE TRADE "552=1|54=1|552=1|54=1|", AE TRADE "54=1|552=1|",
    AE TRADE "552=1|453=1|448=P|447=D|452=1|54=1|", AE TRADE "453=1|448=P|447=D|452=1|552=1|54=1|",
    AE TRADE "552=1|1427=E|54=1|", AE TRADE "552=1|54=1|1427=E|1427=F|", AE TRADE "552=1|54=1|448=P|",
    AE TRADE "552=1|448=P|", AE TRADE "552=1|54=1|453=1|448=P|447=D|452=1|453=1|448=Q|447=D|452=1|",
    AE TRADE "552=1|54=1|453=2|448=P|447=D|452=1|", AE TRADE "552=1|54=1|453=1|448=P|447=D|452=1|448=Q|447=D|452=3|",
    AE TRADE "552=1|54=1|453=2|448=P|447=D|448=Q|447=D|452=1|", AE TRADE "552=1|54=1|453=1|448=P|452=1|1427=E|",
    AE TRADE "552=1|54=1|453=1|447=D|448=P|452=1|", AE TRADE "552=1|54=1|453=1|448=P|447=D|447=D|452=1|",
    AE TRADE "552=1|54=1|453=9|448=P|447=D|452=1|", AE TRADE "552=1|54=1|453=1|448=P|447=D|452=1|no field|",
    AE TRADE "552=1|54=1|453=2|448=P|447=D|452=1|no field|", AE TRADE "552=1|54=1|58=why|",
    AE TRADE "552=1|54=1|20001=x|",
    AE TRADE "552=1|54=1|453=1|448=P|447=D|452=1|64=20240104|", AE TRADE "64=20240132|552=1|54=1|",
    AE TRADE "552=1|54=1|43=Y|", AE TRADE "552=1|54=3|", AE TRADE "552=1|54=1|1427=|", AE "828=99|" TRADE "552=1|54=1|",
    PRICED("0"), PRICED("0.0"), PRICED("0.05"), PRICED("12.50"), PRICED("999999999999999"), PRICED("1000000000000000"),
    PRICED("9999999.99999999"), PRICED("10000000.00000000"), PRICED("0.00000000"), PRICED("0.000000000"), PRICED("1."),
    PRICED(".5"), PRICED("01"), PRICED("00.5"), PRICED("+1"), PRICED("-1"), PRICED("1e3"), PRICED("1,5"), PRICED("1.5."),
    PRICED("1.5x"), PRICED("99999999999999999999999999999999"), PRICED("99999999999999999999999999999999x"), PRICED(""),
    HEADER("AD") "568=R|569=0|828=99|22=8|48=S|580=1|75=20240102|", HEADER("AD") "568=R|569=0|552=1|54=1|",
    HEADER("F") "11=C|41=D|54=1|48=S|22=8|60=20240102-09:30:00|1427=E|", HEADER("F") "11=C|31=|", HEADER("5") "574=4|",
    "35=AE", "35=AE|", "35=",
};

void each_report_body(void (*check)(const char *text))
{
    for (size_t i = 0; i < sizeof report_bodies / sizeof report_bodies[0]; i++)
        check(report_bodies[i]);
}

void check_report_bodies(void)
{
    each_report_body(check_values);
    lend(no_reports);
    struct pair pair = pair_on(&active, "the report that is measured");
    uint64_t out[1];
    fixgw_session_report(&pair.ours, &draft, CALL_TIME, pair.our_reply, FIXGW_REPORT_MOST, our_store, FIXGW_STORE, out);
    insist(out[0] == report.len && memcmp(pair.our_reply, report.at, report.len) == 0, pair.what);
}
