/* Names the rule of document 01 or 02 behind an outcome. N is the message's number, E the number expected before it. The
   rule is worked out here a second time, without proof, from what came in and what went out; what is said of E, of
   Closed and of a Reject is taken from the outcome. tests/ledger holds all of it to the model. */
#include "ledger.h"

struct words {
    char *at;
    size_t room;
};

/* Appends; what has no room is cut off. */
static void say(struct words *words, const char *text)
{
    int len = snprintf(words->at, words->room, "%s", text);
    size_t used = (size_t)len < words->room ? (size_t)len : words->room - 1;
    words->at += used;
    words->room -= used;
}

static void say_number(struct words *words, uint64_t number)
{
    char digits[21];
    snprintf(digits, sizeof digits, "%lu", (unsigned long)number);
    say(words, digits);
}

const char *refusal_words(uint32_t refusal)
{
    static const char *const words[] = {
        "taken", "no whole frame yet", "the session is Closed", "Waiting, and this is no Logon",
        "Waiting, and this Logon has an unreadable 34, wrong CompIDs or a verdict", "the numbers are used up",
        "the reply buffer is under 600 bytes", "the time is past the year 9999",
        "a value that the dictionary would reject", "the buffer is shorter than the message",
        "not exactly one good frame", "the record breaks its ranges", "the report is longer than 512 bytes",
        "a replay is running", "the store has not 32,768 bytes",
    };
    return refusal < sizeof words / sizeof words[0] ? words[refusal] : "a refusal that the documents do not have";
}

static bool replies_with(const struct step *step, size_t place, uint32_t type)
{
    return place < step->replies && type_of(&step->reply[place]) == type;
}

static bool holds(const struct step *step, uint32_t tag, const char *text)
{
    return value_is(first_field(&step->in, tag), text);
}

static bool is_clean(const struct message *message)
{
    uint64_t out[3];
    return fixgw_verdict(message->body, message->body_len, out) == FIXGW_OK && out[0] == 0;
}

static void say_clock(struct words *words, uint64_t time)
{
    char clock[CLOCK];
    clock_words(time, clock);
    say(words, clock);
}

static void say_highest(struct words *words, const struct step *step)
{
    say(words, ", the highest seen is ");
    say_number(words, step->after.words[FIXGW_WORD_GAP_HIGHEST]);
}

/* A number of the message at the front of the reply. */
static uint64_t in_reply(const struct step *step, uint32_t tag)
{
    return number_in(first_field(&step->reply[0], tag));
}

/* The Reject at the front of the reply, with its reason and its tag. */
static void say_reject(struct words *words, const struct step *step)
{
    uint64_t reason = in_reply(step, FIXGW_TAG_SESSION_REJECT_REASON), tag = in_reply(step, FIXGW_TAG_REF_TAG_ID);
    say(words, "Reject ");
    say_number(words, reason);
    say(words, " (");
    say(words, reason_name(reason));
    say(words, ")");
    if (!tag)
        return;
    say(words, ", tag ");
    say_number(words, tag);
    say(words, " ");
    say(words, tag_name(tag));
}

/* A Logon above E: the gap that it opens is not the one that it closed. */
static void explain_high_logon(struct words *words, const struct step *step)
{
    say(words, "Waiting, N > E: Logon, then Resend Request from E, ");
    say(words, step->before.words[FIXGW_WORD_GAP_OPEN] ? "another gap is open" : "a gap is open");
    say_highest(words, step);
}

static void explain_waiting(struct words *words, const struct step *step)
{
    bool is_reset = holds(step, FIXGW_TAG_RESET_SEQ_NUM_FLAG, "Y"), is_taken = replies_with(step, 0, FIXGW_TYPE_LOGON);
    if (is_reset)
        say(words, is_taken ? "Waiting, 141=Y and N = 1: Logon with 141=Y as number 1, the store is zeroed" :
                              "Waiting, 141=Y and N is not 1: Logout");
    else if (!is_taken)
        say(words, "Waiting, N < E: Logout");
    else if (replies_with(step, 1, FIXGW_TYPE_RESEND_REQUEST))
        explain_high_logon(words, step);
    else
        say(words, "Waiting, N = E: Logon");
}

/* A Sequence Reset that is no gap fill. */
static bool is_bare_reset(const struct step *step)
{
    return type_of(&step->in) == FIXGW_TYPE_SEQUENCE_RESET && !holds(step, FIXGW_TAG_GAP_FILL_FLAG, "Y");
}

static void explain_reset(struct words *words, const struct step *step)
{
    if (step->replies == 0) {
        say(words, "rule 3, Sequence Reset without 123=Y: taken, whatever N is");
        return;
    }
    say(words, is_clean(&step->in) ? "rule 3, Sequence Reset to below E: " : "rule 3, Sequence Reset with a verdict: ");
    say_reject(words, step);
}

/* Whether it is a Resend Request that can be served: its numbers were sent, and its end is not before its begin. */
static bool is_served(const struct step *step)
{
    uint64_t begin = number_in(first_field(&step->in, FIXGW_TAG_BEGIN_SEQ_NO));
    uint64_t end = number_in(first_field(&step->in, FIXGW_TAG_END_SEQ_NO));
    return type_of(&step->in) == FIXGW_TYPE_RESEND_REQUEST && is_clean(&step->in)
        && begin < step->before.words[FIXGW_WORD_NEXT_OUT] && (end == 0 || end >= begin);
}

/* The replay that was started, by the record. */
static void say_replay(struct words *words, const struct step *step)
{
    say(words, "a replay of ");
    say_number(words, step->after.words[FIXGW_WORD_REPLAY_AT]);
    say(words, " to ");
    say_number(words, step->after.words[FIXGW_WORD_REPLAY_TO]);
    say(words, step->before.words[FIXGW_WORD_REPLAY_AT] ? " starts in place of another" : " starts");
}

/* The gap as it was and, if it is asked for, why: "only if no gap is open, or E has moved since, or 10 seconds have passed
   on the step's clock; a clock that went back counts as passed". The record behind an asking has the step's time. */
static void say_gap(struct words *words, const struct step *step, bool is_asked)
{
    const uint64_t *gap = step->before.words;
    uint64_t asked = step->after.words[FIXGW_WORD_GAP_ASKED];
    if (!gap[FIXGW_WORD_GAP_OPEN]) {
        say(words, "no gap is open");
        return;
    }
    say(words, "a gap is open for ");
    if (gap[FIXGW_WORD_GAP_FOR] != gap[FIXGW_WORD_EXPECTED]) {
        say_number(words, gap[FIXGW_WORD_GAP_FOR]);
        say(words, ", E has moved since");
        return;
    }
    say(words, "E, asked at ");
    say_clock(words, gap[FIXGW_WORD_GAP_ASKED]);
    if (is_asked)
        say(words, asked < gap[FIXGW_WORD_GAP_ASKED] ? ", the clock went back" : ", ten seconds have passed");
}

static void explain_high(struct words *words, const struct step *step)
{
    bool is_asked = replies_with(step, 0, FIXGW_TYPE_RESEND_REQUEST);
    say(words, "rule 4, N > E, ");
    say_gap(words, step, is_asked);
    say(words, ": ");
    if (is_served(step)) {
        say_replay(words, step);
        say(words, ", as asked for, and ");
    }
    say(words, is_asked ? "Resend Request 7=E, 16=0" : "we do not ask again");
    say_highest(words, step);
}

/* What is wrong with the times of a duplicate, by the reason and the tag of its Reject. */
static const char *why_not_ignored(const struct step *step)
{
    bool is_original = in_reply(step, FIXGW_TAG_REF_TAG_ID) == FIXGW_TAG_ORIG_SENDING_TIME;
    switch (in_reply(step, FIXGW_TAG_SESSION_REJECT_REASON)) {
    case FIXGW_REASON_REQUIRED_TAG_MISSING: return is_original ? "no 122: " : "no 52: ";
    case FIXGW_REASON_DATA_FORMAT: return is_original ? "122 not a time: " : "52 not a time: ";
    default: return "122 later than 52: ";
    }
}

static void explain_low(struct words *words, const struct step *step)
{
    if (replies_with(step, 0, FIXGW_TYPE_LOGOUT))
        say(words, "rule 5, N < E and 43 is not Y: Logout");
    else if (step->replies == 0)
        say(words, "rule 5, N < E, 43=Y, 122 not later than 52: a duplicate, ignored");
    else {
        say(words, "rule 5, N < E, 43=Y, ");
        say(words, why_not_ignored(step));
        say_reject(words, step);
    }
}

static const char *why_rejected(const struct step *step)
{
    if (type_of(&step->in) == FIXGW_TYPE_TRADE_CAPTURE_REPORT)
        return "rule 6, N = E, a report from a member: ";
    if (!is_clean(&step->in))
        return "rule 6, N = E, a verdict: ";
    if (type_of(&step->in) == FIXGW_TYPE_RESEND_REQUEST)
        return "rule 6, N = E, no such range: ";
    if (type_of(&step->in) == FIXGW_TYPE_SEQUENCE_RESET)
        return "rule 6, N = E, 36 not above N: ";
    return "rule 6, N = E, a second Logon: ";
}

static void explain_in_turn(struct words *words, const struct step *step)
{
    if (step->delivered)
        say(words, "rule 6, N = E, clean: delivered to the venue");
    else if (replies_with(step, 0, FIXGW_TYPE_REJECT)) {
        say(words, why_rejected(step));
        say_reject(words, step);
    } else if (replies_with(step, 0, FIXGW_TYPE_HEARTBEAT))
        say(words, "rule 6, N = E, a test: Heartbeat with its 112");
    else if (is_served(step)) {
        say(words, "rule 6, N = E, asked to resend: ");
        say_replay(words, step);
    } else if (replies_with(step, 0, FIXGW_TYPE_LOGOUT))
        say(words, "rule 6, N = E, the peer ends the session: Logout with 1409=4");
    else if (type_of(&step->in) == FIXGW_TYPE_SEQUENCE_RESET)
        say(words, "rule 6, N = E, 36 above N: taken");
    else
        say(words, "rule 6, N = E: nothing to answer");
}

/* Rule 2 alone answers with two messages of which the second is a Logout. */
static void explain_active(struct words *words, const struct step *step)
{
    uint64_t n = number_in(first_field(&step->in, FIXGW_TAG_MSG_SEQ_NUM));
    uint64_t expected = step->before.words[FIXGW_WORD_EXPECTED];
    if (n == 0)
        say(words, "rule 1, 34 unreadable: Logout");
    else if (replies_with(step, 1, FIXGW_TYPE_LOGOUT)) {
        say(words, "rule 2, CompIDs: ");
        say_reject(words, step);
        say(words, ", then Logout");
    } else if (is_bare_reset(step))
        explain_reset(words, step);
    else if (n > expected)
        explain_high(words, step);
    else if (n < expected)
        explain_low(words, step);
    else
        explain_in_turn(words, step);
}

/* What became of E and of the status, by the record before and after. */
static void say_changes(struct words *words, const struct step *step)
{
    uint64_t before = step->before.words[FIXGW_WORD_EXPECTED], after = step->after.words[FIXGW_WORD_EXPECTED];
    if (after == before)
        say(words, "; E stays");
    else if (after == before + 1)
        say(words, "; E + 1");
    else {
        say(words, "; E becomes ");
        say_number(words, after);
    }
}

/* A gap that was open and is not any more. */
static void say_closed_gap(struct words *words, const struct step *step)
{
    if (!step->before.words[FIXGW_WORD_GAP_OPEN] || step->after.words[FIXGW_WORD_GAP_OPEN])
        return;
    if (replies_with(step, 0, FIXGW_TYPE_LOGON))
        say(words, "; the Logon closes the gap");
    else if (is_bare_reset(step) && step->replies == 0)
        say(words, "; the reset closes the gap");
    else
        say(words, "; E is now above the highest seen, the gap is closed");
}

void explain(const struct step *step, char *at, size_t room)
{
    struct words words = { at, room };
    if (step->refusal) {
        say(&words, "refusal ");
        say_number(&words, step->refusal);
        say(&words, ": ");
        say(&words, refusal_words(step->refusal));
    } else if (step->before.words[FIXGW_WORD_STATUS] == FIXGW_WAITING)
        explain_waiting(&words, step);
    else
        explain_active(&words, step);
    if (!step->refusal) {
        say_changes(&words, step);
        say_closed_gap(&words, step);
    }
    if (step->after.words[FIXGW_WORD_STATUS] == FIXGW_CLOSED && step->before.words[FIXGW_WORD_STATUS] != FIXGW_CLOSED)
        say(&words, "; Closed");
}

/* ---- Bytes that are no part of any frame ------------------------------------------------------------------------- */

#define MARK "8=FIXT.1.1\0019="
enum { MARK_SIZE = sizeof MARK - 1, TRAILER_SIZE = 7 };

static bool is_mark(const uint8_t *bytes, size_t len)
{
    return len >= MARK_SIZE && memcmp(bytes, MARK, MARK_SIZE) == 0;
}

/* The digits behind a start mark at the front of the bytes, up to a `|`; nowhere if there is none. */
static struct value length_field(const uint8_t *bytes, size_t len)
{
    struct value digits = { bytes + MARK_SIZE, 0 }, none = { NULL, 0 };
    if (!is_mark(bytes, len))
        return none;
    while (MARK_SIZE + digits.len < len && digits.at[digits.len] != 1)
        digits.len++;
    return MARK_SIZE + digits.len < len ? digits : none;
}

/* Whether another start mark begins in the frame that would have so many bytes. */
static bool has_mark_inside(const uint8_t *bytes, size_t len, uint64_t size)
{
    for (size_t at = MARK_SIZE; at < size && at < len; at++)
        if (is_mark(bytes + at, len - at))
            return true;
    return false;
}

void explain_noise(const uint8_t *bytes, size_t len, size_t held, char *at, size_t room)
{
    struct words words = { at, room };
    struct value digits = length_field(bytes, len);
    uint64_t promised = digits.at ? number_in(digits) : 0;
    if (!promised) {
        say(&words, len == 1 ? "no good frame begins in it" : "no good frame begins in them");
        return;
    }
    say(&words, "a start mark that promises a body of ");
    say_number(&words, promised);
    bool is_cut = has_mark_inside(bytes, held, MARK_SIZE + digits.len + 1 + promised + TRAILER_SIZE);
    say(&words, is_cut ? " bytes, with another mark inside" : " bytes, but no good frame begins there");
}
