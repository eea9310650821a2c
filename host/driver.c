/* The driver: one request a line on standard input, one answer a line on standard output (docs/DRIVER.md). It goes
   through the calls of fixgw.h alone and adds no rule of its own. Here are the lines, and the requests that belong to no
   session. */
#include "driver.h"

enum { LINE_ROOM = 4096 };                  /* of the line buffer that `stream` lends */

/* ---- Reading ----------------------------------------------------------------------------------------------------- */

static bool answer_read(struct words *in)
{
    struct slice bytes;
    if (!take_bytes(in, &bytes) || !all_taken(in))
        return false;
    uint64_t out[2] = { UNSET, UNSET };
    uint32_t refusal = fixgw_read(bytes.at, bytes.len, out);
    if (refusal && !are_zero(out + 1, 1))
        return true;
    if (refusal)
        say_refusal(refusal);
    else
        say("frame");
    say(" ");
    say_number(out[0]);
    if (refusal)
        return true;
    say(" ");
    say_number(out[1]);
    return true;
}

struct line {
    uint8_t bytes[LINE_ROOM];
    uint64_t held;
};

/* Reads and drops until refusal 1. */
static void work_off(struct line *line, uint64_t piece)
{
    uint64_t out[2];
    while (fixgw_read(line->bytes, line->held, out) == FIXGW_OK) {
        say(" ");
        say_number(piece);
        say(":");
        say_digits_of(line->bytes + out[0], out[1]);
        line->held = fixgw_drop(line->bytes, LINE_ROOM, line->held, out[0] + out[1]);
    }
    line->held = fixgw_drop(line->bytes, LINE_ROOM, line->held, out[0]);
}

/* Puts one piece behind what is pending, in as many turns as its length takes. */
static void take_piece(struct line *line, struct slice bytes, uint64_t piece)
{
    do {
        uint64_t put = fixgw_put(line->bytes, LINE_ROOM, line->held, bytes.at, bytes.len);
        if (put == 0 && bytes.len > 0)
            fail("driver: the line buffer is full and nothing is dropped\n");
        line->held += put;
        work_off(line, piece);
        bytes.at = put ? bytes.at + put : bytes.at;
        bytes.len -= put;
    } while (bytes.len > 0);
}

static bool answer_stream(struct words *in)
{
    static struct line line;
    struct words again = *in;
    struct slice bytes;
    uint8_t *word;
    size_t len;
    while (!all_taken(&again))
        if (!take_word(&again, &word, &len) || !is_bytes(word, len))
            return false;
    line.held = 0;
    say("frames");
    for (uint64_t piece = 0; take_bytes(in, &bytes); piece++)
        take_piece(&line, bytes, piece);
    say(" pending ");
    say_hex(line.bytes, line.held);
    return true;
}

/* ---- Fields, verdict, writer ------------------------------------------------------------------------------------- */

static void say_part(const uint8_t *body, const uint64_t part[5])
{
    say(" ");
    if (part[0] == FIXGW_PART_MALFORMED)
        say("!");
    else
        say_number(part[1]);
    say("=");
    say_hex(body + part[2], part[3] - part[2]);
}

static bool answer_fields(struct words *in)
{
    struct slice body;
    uint64_t part[5] = { UNSET, UNSET, UNSET, UNSET, UNSET };
    if (!take_bytes(in, &body) || !all_taken(in))
        return false;
    uint32_t refusal = fixgw_field(body.at, body.len, 0, part);
    if (refusal && are_zero(part, 5))
        say_refusal(refusal);
    if (refusal)
        return true;
    say("fields");
    while (part[0] != FIXGW_PART_END) {
        say_part(body.at, part);
        fixgw_field(body.at, body.len, part[4], part);
    }
    return true;
}

static bool answer_verdict(struct words *in)
{
    struct slice body;
    uint64_t out[3] = { UNSET, UNSET, UNSET };
    if (!take_bytes(in, &body) || !all_taken(in))
        return false;
    uint32_t refusal = fixgw_verdict(body.at, body.len, out);
    if ((refusal || out[0] == 0) && !are_zero(out, 3))
        return true;
    if (refusal)
        say_refusal(refusal);
    else if (out[0] == 0)
        say("clean");
    else
        say_finding(out);
    return true;
}

/* The writer's values of one request. The bytes stand where the line had them, so the line is the writer's text. */
struct values {
    uint64_t words[FIXGW_VALUES];
    bool other;                             /* a tag was given for which the call has no place */
};

/* The tag of each place, and whether its value is a number. */
static const struct {
    uint64_t tag;
    bool is_number;
} places[FIXGW_PLACES] = {
    [FIXGW_PLACE_SENDER_COMP_ID] = { FIXGW_TAG_SENDER_COMP_ID, false },
    [FIXGW_PLACE_TARGET_COMP_ID] = { FIXGW_TAG_TARGET_COMP_ID, false },
    [FIXGW_PLACE_MSG_SEQ_NUM] = { FIXGW_TAG_MSG_SEQ_NUM, true },
    [FIXGW_PLACE_POSS_DUP_FLAG] = { FIXGW_TAG_POSS_DUP_FLAG, false },
    [FIXGW_PLACE_SENDING_TIME] = { FIXGW_TAG_SENDING_TIME, false },
    [FIXGW_PLACE_ORIG_SENDING_TIME] = { FIXGW_TAG_ORIG_SENDING_TIME, false },
    [FIXGW_PLACE_TEST_REQ_ID] = { FIXGW_TAG_TEST_REQ_ID, false },
    [FIXGW_PLACE_BEGIN_SEQ_NO] = { FIXGW_TAG_BEGIN_SEQ_NO, true },
    [FIXGW_PLACE_END_SEQ_NO] = { FIXGW_TAG_END_SEQ_NO, true },
    [FIXGW_PLACE_REF_SEQ_NUM] = { FIXGW_TAG_REF_SEQ_NUM, true },
    [FIXGW_PLACE_REF_TAG_ID] = { FIXGW_TAG_REF_TAG_ID, true },
    [FIXGW_PLACE_REF_MSG_TYPE] = { FIXGW_TAG_REF_MSG_TYPE, false },
    [FIXGW_PLACE_SESSION_REJECT_REASON] = { FIXGW_TAG_SESSION_REJECT_REASON, true },
    [FIXGW_PLACE_SESSION_STATUS] = { FIXGW_TAG_SESSION_STATUS, true },
    [FIXGW_PLACE_TEXT] = { FIXGW_TAG_TEXT, false },
    [FIXGW_PLACE_GAP_FILL_FLAG] = { FIXGW_TAG_GAP_FILL_FLAG, false },
    [FIXGW_PLACE_NEW_SEQ_NO] = { FIXGW_TAG_NEW_SEQ_NO, true },
    [FIXGW_PLACE_ENCRYPT_METHOD] = { FIXGW_TAG_ENCRYPT_METHOD, false },
    [FIXGW_PLACE_HEART_BT_INT] = { FIXGW_TAG_HEART_BT_INT, true },
    [FIXGW_PLACE_DEFAULT_APPL_VER_ID] = { FIXGW_TAG_DEFAULT_APPL_VER_ID, false },
    [FIXGW_PLACE_RESET_SEQ_NUM_FLAG] = { FIXGW_TAG_RESET_SEQ_NUM_FLAG, false },
};

static size_t place_of(uint64_t tag)
{
    size_t place = 0;
    while (place < FIXGW_PLACES && places[place].tag != tag)
        place++;
    return place;
}

static bool give(struct values *values, uint64_t tag, bool is_number, uint64_t a, uint64_t b)
{
    size_t place = place_of(tag);
    if (place == FIXGW_PLACES) {
        values->other = true;
        return true;
    }
    if (is_number != places[place].is_number || values->words[3 * place])
        return false;
    values->words[3 * place] = 1;
    values->words[3 * place + 1] = a;
    values->words[3 * place + 2] = b;
    return true;
}

/* One TAG=nNUMBER or TAG=bBYTES. */
static bool take_pair(struct words *in, struct values *values)
{
    uint8_t *word;
    size_t len;
    uint64_t tag, number;
    if (!take_word(in, &word, &len))
        return false;
    uint8_t *equals = memchr(word, '=', len);
    if (!equals || !number_of(word, (size_t)(equals - word), GREATEST_NUMBER, &tag))
        return false;
    uint8_t *value = equals + 2;
    size_t before = (size_t)(equals - word) + 2;
    if (len < before)
        return false;
    if (equals[1] == 'n')
        return number_of(value, len - before, GREATEST_NUMBER, &number) && give(values, tag, true, number, 0);
    if (equals[1] != 'b' || !is_bytes(value, len - before))
        return false;
    uint64_t start = (uint64_t)(value - in->line);
    return give(values, tag, false, start, start + decoded(value, len - before).len);
}

static void say_written(struct slice type, const struct values *values, struct slice text, size_t room)
{
    uint64_t out[1] = { UNSET };
    lend(room);
    uint32_t refusal = fixgw_write(type.at, type.len, values->words, text.at, text.len, lent, room, out);
    if (!is_kept(room, refusal ? 0 : out[0]) || (refusal && !are_zero(out, 1)))
        return;
    if (refusal) {
        say_refusal(refusal);
        return;
    }
    say("written ");
    say_hex(lent, out[0]);
}

static bool answer_write(struct words *in)
{
    uint64_t room;
    struct slice type, text = { in->line, in->end };
    struct values values = { { 0 }, false };
    if (!take_number(in, MOST_LENT, &room) || !take_bytes(in, &type))
        return false;
    while (!all_taken(in))
        if (!take_pair(in, &values))
            return false;
    if (values.other)
        say_refusal(FIXGW_REFUSED_VALUE);
    else
        say_written(type, &values, text, room);
    return true;
}

/* ---- Lines ------------------------------------------------------------------------------------------------------- */

/* The change requests of document 02 that are in, in the order in which they came in. */
static bool answer_landed(struct words *in)
{
    if (!all_taken(in))
        return false;
    say("landed 1 4 10 2 3 5 6");
    return true;
}

static const struct {
    const char *name;
    bool (*answer)(struct words *);
} requests[] = {
    { "read", answer_read }, { "stream", answer_stream }, { "fields", answer_fields }, { "verdict", answer_verdict },
    { "write", answer_write }, { "new", answer_new }, { "reconnect", answer_reconnect }, { "step", answer_step },
    { "tick", answer_tick }, { "landed", answer_landed }, { "report", answer_report },
    { "report-values", answer_report_values }, { "replay", answer_replay },
};

static bool answer_request(struct words *in)
{
    uint8_t *word;
    size_t len;
    if (!take_word(in, &word, &len))
        return false;
    if (is_word(word, len, "fixt") && !take_word(in, &word, &len))
        return false;
    for (size_t i = 0; i < sizeof requests / sizeof requests[0]; i++)
        if (is_word(word, len, requests[i].name))
            return requests[i].answer(in);
    return false;
}

static struct text input;                   /* what has been read and is not answered yet */

static void send_answer(void)
{
    for (size_t sent = 0; sent < answer.len;) {
        long now = write(1, answer.at + sent, answer.len - sent);
        if (now <= 0)
            fail("driver: the answer cannot be written\n");
        sent += (size_t)now;
    }
}

static void answer_line(uint8_t *line, size_t len)
{
    struct words in = { line, 0, len };
    answer.len = 0;
    if (!answer_request(&in))
        say("error");
    say("\n");
    send_answer();
}

/* Reads on behind what is there; false at the end of the input. */
static bool read_on(void)
{
    make_room(&input, READ_AT_ONCE);
    long got = read(0, input.at + input.len, input.room - input.len);
    if (got < 0)
        fail("driver: the input cannot be read\n");
    input.len += (size_t)got;
    return got > 0;
}

/* Answers the whole lines that are there and gives the place behind the last. The first `seen` bytes have no feed. */
static size_t answer_lines(size_t seen)
{
    size_t start = 0;
    uint8_t *feed = memchr(input.at + seen, '\n', input.len - seen);
    while (feed) {
        answer_line(input.at + start, (size_t)(feed - input.at) - start);
        start = (size_t)(feed - input.at) + 1;
        feed = memchr(input.at + start, '\n', input.len - start);
    }
    return start;
}

int main(void)
{
    size_t seen = 0;
    while (read_on()) {
        size_t done = answer_lines(seen);
        if (done > 0)
            memmove(input.at, input.at + done, input.len - done);
        input.len -= done;
        seen = input.len;
    }
    if (input.len > 0)
        answer_line(input.at, input.len);
    return 0;
}
