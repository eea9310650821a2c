/* Calls that the driver does not have, and calls on a record as it lies in memory, one request a line, for tests/calls
   and tests/records.
     version                     VERSION
     body FRAME                  REFUSAL OUT OUT
     first TAG BODY              REFUSAL OUT OUT OUT
     step TIME FRAME RECORD, tick TIME RECORD, logout TIME RECORD, test TIME ID RECORD, reconnect RECORD,
     new OURS PEER RECORD        REFUSAL OUT OUT REPLY RECORD, OUT the call's words (0 where it has none)
     step TIME FRAME RECORD STORE, replay TIME RECORD STORE, report TIME RECORD STORE
                                 the same with the STORE behind it; the report is of one trade, always the same
     room ROOM                   room ROOM: the calls behind it lend so many bytes, which are 600 otherwise
   RECORD is its bytes in hex: 24 for the CompIDs and 8 for each word, of which there may be any number. REPLY are the
   buffer's bytes up to the last that changed. STORE is as the driver's: its length, then ,PLACE=BYTES for each place that
   is not all zero. Where none is given, one of zeros is lent. */
#include "fixgw.h"
#include "lines.h"

enum { MOST_ROOM = 2048, MOST_WORDS = 64, GUARD = 0x5a };

static size_t room = FIXGW_LEAST_REPLY_ROOM;

struct call {
    uint8_t ids[FIXGW_COMP_IDS];
    uint64_t words[MOST_WORDS], out[2];
    size_t count;
    uint8_t reply[MOST_ROOM];
};

static uint8_t store[2 * FIXGW_STORE];
static size_t store_len;
static bool is_store_given;

static void print_digits(const void *bytes, size_t len)
{
    for (size_t i = 0; i < len; i++)
        printf("%02x", ((const uint8_t *)bytes)[i]);
}

static void print_hex(const void *bytes, size_t len)
{
    printf(len ? " " : " -");
    print_digits(bytes, len);
}

/* The number up to this character or the end, which `at` stands behind then. */
static uint64_t number_before(char **at, char end)
{
    char *front = *at;
    while (**at && **at != end)
        ++*at;
    if (**at)
        *(*at)++ = 0;
    return number_of(front);
}

static void take_store(char *word)
{
    is_store_given = *word != 0;
    memset(store, 0, sizeof store);
    store_len = is_store_given ? number_before(&word, ',') : FIXGW_STORE;
    while (*word) {
        uint8_t *place = store + FIXGW_STORE_PLACE * number_before(&word, '=');
        char *bytes = word;
        while (*word && *word != ',')
            word++;
        if (*word)
            *word++ = 0;
        memcpy(place, bytes, decode(bytes));
    }
}

static void print_store(void)
{
    if (!is_store_given)
        return;
    printf(" %lu", (unsigned long)store_len);
    for (size_t at = 0; at < store_len; at += FIXGW_STORE_PLACE) {
        size_t used = FIXGW_STORE_PLACE;
        while (used > 0 && store[at + used - 1] == 0)
            used--;
        if (used > 0)
            printf(",%lu=", (unsigned long)(at / FIXGW_STORE_PLACE));
        print_digits(store + at, used);
    }
}

/* The answering words that the call does not have are 0; the others hold something until it writes them. */
static void take_record(struct call *call, char *word, size_t outs)
{
    size_t len = decode(word);
    memset(call, GUARD, sizeof *call);
    call->count = (len - FIXGW_COMP_IDS) / 8;
    memcpy(call->ids, word, FIXGW_COMP_IDS);
    memcpy(call->words, word + FIXGW_COMP_IDS, 8 * call->count);
    memset(call->out + outs, 0, sizeof call->out - 8 * outs);
}

/* Whether the words behind those that were lent are as they were. */
static bool is_guarded(const struct call *call)
{
    const uint8_t *bytes = (const uint8_t *)call->words;
    for (size_t i = 8 * call->count; i < sizeof call->words; i++)
        if (bytes[i] != GUARD)
            return false;
    return true;
}

static void print_answer(uint32_t refusal, const struct call *call)
{
    size_t used = MOST_ROOM;
    while (used > 0 && call->reply[used - 1] == GUARD)
        used--;
    printf("%u %lu %lu", refusal, (unsigned long)call->out[0], (unsigned long)call->out[1]);
    print_hex(call->reply, used);
    print_hex(call->ids, FIXGW_COMP_IDS);
    print_digits(call->words, 8 * call->count);
    print_store();
    printf(is_guarded(call) ? "\n" : " and behind it\n");
}

/* The next word as bytes. */
struct bytes {
    const uint8_t *at;
    size_t len;
};

static struct bytes next_bytes(char **at)
{
    char *word = next_word(at);
    struct bytes bytes = { (const uint8_t *)word, decode(word) };
    return bytes;
}

static void give(struct fixgw_report_draft *draft, uint32_t tag, const char *text)
{
    fixgw_report_give(draft, tag, (const uint8_t *)text, strlen(text));
}

static uint32_t report_trade(struct call *call, uint64_t time)
{
    struct fixgw_report_draft draft;
    fixgw_report_empty(&draft);
    give(&draft, FIXGW_TAG_TRADE_REPORT_ID, "T1");
    give(&draft, FIXGW_TAG_TRD_TYPE, "0");
    give(&draft, FIXGW_TAG_TRANSACT_TIME, "20240102-09:29:59");
    fixgw_report_give_decimal(&draft, FIXGW_TAG_LAST_QTY, 100, 0);
    fixgw_report_give_decimal(&draft, FIXGW_TAG_LAST_PX, 1250, 2);
    give(&draft, FIXGW_TAG_MATCH_TYPE, "4");
    give(&draft, FIXGW_TAG_SECURITY_ID, "133215");
    give(&draft, FIXGW_TAG_SECURITY_ID_SOURCE, "8");
    give(&draft, FIXGW_TAG_SIDE, "1");
    return fixgw_report(call->ids, call->words, call->count, draft.values, draft.text, draft.text_len, time, call->reply,
                        room, store, store_len, call->out);
}

static void answer_record(const char *name, char *at)
{
    static struct call call;
    bool is_new = strcmp(name, "new") == 0, is_reconnect = strcmp(name, "reconnect") == 0;
    bool is_step = strcmp(name, "step") == 0, is_test = strcmp(name, "test") == 0;
    uint64_t time = is_new || is_reconnect ? 0 : number_of(next_word(&at));
    struct bytes first = { NULL, 0 }, second = { NULL, 0 };
    if (is_new || is_step || is_test)
        first = next_bytes(&at);
    if (is_new)
        second = next_bytes(&at);
    take_record(&call, next_word(&at), is_step ? 2 : is_new || is_reconnect ? 0 : 1);
    take_store(next_word(&at));
    uint64_t *words = call.words, *out = call.out;
    size_t count = call.count;
    if (is_new)
        print_answer(fixgw_new(call.ids, words, count, first.at, first.len, second.at, second.len), &call);
    else if (is_reconnect)
        print_answer(fixgw_reconnect(call.ids, words, count), &call);
    else if (is_step)
        print_answer(fixgw_step(call.ids, words, count, first.at, first.len, time, call.reply, room, store, store_len,
                                out), &call);
    else if (is_test)
        print_answer(fixgw_test_request(call.ids, words, count, first.at, first.len, time, call.reply, room, out),
                     &call);
    else if (strcmp(name, "replay") == 0)
        print_answer(fixgw_replay(call.ids, words, count, time, call.reply, room, store, store_len, out), &call);
    else if (strcmp(name, "report") == 0)
        print_answer(report_trade(&call, time), &call);
    else if (strcmp(name, "tick") == 0)
        print_answer(fixgw_tick(call.ids, words, count, time, call.reply, room, out), &call);
    else
        print_answer(fixgw_logout(call.ids, words, count, time, call.reply, room, out), &call);
}

static void answer_body(struct bytes frame)
{
    uint64_t out[2] = { GUARD, GUARD };
    uint32_t refusal = fixgw_body(frame.at, frame.len, out);
    printf("%u %lu %lu\n", refusal, (unsigned long)out[0], (unsigned long)out[1]);
}

static void answer_first(uint64_t tag, struct bytes body)
{
    uint64_t out[3] = { GUARD, GUARD, GUARD };
    uint32_t refusal = fixgw_first_field(body.at, body.len, (uint32_t)tag, out);
    printf("%u %lu %lu %lu\n", refusal, (unsigned long)out[0], (unsigned long)out[1], (unsigned long)out[2]);
}

static void answer(char *at)
{
    const char *name = next_word(&at);
    if (strcmp(name, "version") == 0)
        printf("%u\n", fixgw_version());
    else if (strcmp(name, "room") == 0)
        printf("room %lu\n", (unsigned long)(room = number_of(next_word(&at))));
    else if (strcmp(name, "body") == 0)
        answer_body(next_bytes(&at));
    else if (strcmp(name, "first") == 0) {
        uint64_t tag = number_of(next_word(&at));
        answer_first(tag, next_bytes(&at));
    } else
        answer_record(name, at);
}

int main(void)
{
    while (read_line()) {
        answer(line);
        fflush(NULL);
    }
    return 0;
}
