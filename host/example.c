/* An example host, to copy from: a venue's loop around the gateway, as docs/HOST.md has it. It plays a member's
   recorded day (day.h) and prints a ledger; with --serve PORT [OURS PEER] it serves lines on 127.0.0.1, by the clock. */
#include "day.h"
#include "fixgw.h"
#include "ledger.h"
#include "libc.h"
#include "trade.h"

#define SECOND ((uint64_t)1000000)

enum {
    LINE_ROOM = 4096,                       /* anything from FIXGW_LONGEST_FRAME on will do */
    LINES = 4,
    READ_ROOM = 2048,
    TRADES = sizeof trades / sizeof trades[0],
    WORDS_ROOM = 200,
    BETWEEN_READS = 100,                    /* microseconds, in the recorded day */
    SECONDS_TO_LOG_ON = 10,
    SECONDS_TO_DRAIN = 2
};

struct line;

/* What the venue keeps of each peer. A real one keeps the record and the store on disk, together. */
struct desk {
    struct fixgw_session record;
    uint8_t store[FIXGW_STORE];             /* the last reports to this peer, for those that it asks for again */
    struct line *line;                      /* NULL while none is up */
};

enum state { DOWN, UP, DRAINING };

struct line {
    enum state state;
    int socket;                             /* below 0: a recorded line */
    struct desk *desk;                      /* NULL until a Logon has said who is calling */
    uint8_t bytes[LINE_ROOM];
    uint64_t held;
    uint64_t heard;                         /* when the last frame came, or the connection */
    uint64_t asked;                         /* when our Test Request went out that nothing has answered; 0: none */
    uint64_t left;                          /* when we hung up */
    uint64_t reads, came, last_read;        /* that the ledger has not told of yet */
};

static struct line lines[LINES];
static struct desk *desks;
static size_t desk_count;
static uint64_t cancels, trade_requests, reports;
static struct desk *late[TRADES];           /* to whom a trade is still to be told; NULL: to nobody */
static bool answers_requests;               /* whether a Trade Capture Report Request is answered with the trades */

/* How long ago; nothing for a clock that went back. */
static uint64_t since(uint64_t then, uint64_t time)
{
    return time > then ? time - then : 0;
}

/* ---- What a venue has of its own --------------------------------------------------------------------------------- */

long send(int, const void *, size_t, int);
int shutdown(int, int);
enum { MSG_NOSIGNAL = 0x4000, NO_MORE_SENDING = 1 };

/* False if the peer cannot be reached. A recorded line takes everything. */
static bool send_out(const struct line *line, const uint8_t *bytes, size_t len)
{
    for (size_t sent = 0; line->socket >= 0 && sent < len;) {
        long now = send(line->socket, bytes + sent, len - sent, MSG_NOSIGNAL);
        if (now <= 0)
            return false;
        sent += (size_t)now;
    }
    return true;
}

/* A real venue writes the record to disk here, with the store unless that is NULL, which is as it was, and with the frame
   if one is delivered; all in one go. It answers false if it cannot. */
static bool keep(struct desk *desk, const struct fixgw_session *record, const uint8_t *store,
                 const struct message *delivered)
{
    (void)delivered;
    desk->record = *record;
    if (store)
        memcpy(desk->store, store, FIXGW_STORE);
    return true;
}

/* A copy of the store for a call that may change it. */
static uint8_t *copy_of_store(const struct desk *desk)
{
    static uint8_t copy[FIXGW_STORE];
    memcpy(copy, desk->store, FIXGW_STORE);
    return copy;
}

/* A real venue hands the message to its order book or its trade desk here. */
static void deliver(const struct message *message)
{
    if (type_of(message) == FIXGW_TYPE_ORDER_CANCEL_REQUEST)
        cancels++;
    else
        trade_requests++;
}

static void tell_reads(struct line *line, uint64_t pending)
{
    ledger_came(line->last_read, line->reads, line->came, pending);
    line->reads = 0;
    line->came = 0;
}

static void tell_noise(struct line *line, uint64_t time, uint64_t len)
{
    if (len > 0)
        tell_reads(line, 0);
    ledger_noise(time, line->bytes, len, line->held);
}

/* ---- A line comes and goes --------------------------------------------------------------------------------------- */

/* A new connection: nothing is pending, and nobody knows yet who it is. */
static void connected(struct line *line, uint64_t time, int socket)
{
    memset(line, 0, sizeof *line);
    line->state = UP;
    line->socket = socket;
    line->heard = time;
    ledger_connected(time);
}

static void gone(struct line *line, uint64_t time, const char *why)
{
    tell_reads(line, line->held);
    ledger_line(time, why);
    if (line->desk)
        line->desk->line = NULL;
    line->desk = NULL;
    line->held = 0;
    line->state = DOWN;
}

/* What was sent must arrive: if the socket is closed while bytes of the peer lie unread in it, they are answered with a
   reset, which may overtake our Logout. So only our side ends here, and the rest is read up to the peer's end. */
static void hang_up(struct line *line, uint64_t time, const char *why)
{
    gone(line, time, why);
    if (line->socket < 0)
        return;
    shutdown(line->socket, NO_MORE_SENDING);
    line->left = time;
    line->state = DRAINING;
}

static bool is_comp_id(struct value value, const uint8_t *place, uint8_t len)
{
    return value.at && value.len == len && memcmp(value.at, place, len) == 0;
}

/* The desk that a message is from and for, if there is one. */
static struct desk *desk_of(const struct message *message)
{
    struct value sender = first_field(message, FIXGW_TAG_SENDER_COMP_ID);
    struct value target = first_field(message, FIXGW_TAG_TARGET_COMP_ID);
    for (size_t i = 0; i < desk_count; i++)
        if (is_comp_id(sender, desks[i].record.peer, desks[i].record.peer_len)
            && is_comp_id(target, desks[i].record.ours, desks[i].record.ours_len))
            return &desks[i];
    return NULL;
}

/* Who is calling, as the first message says; or why it is turned away. A peer whose line is up is turned away before its
   record is touched: otherwise whoever knows a CompID could end its session. Only then is it a reconnect. */
static const char *why_not_admitted(struct line *line, const struct message *message)
{
    struct desk *desk = desk_of(message);
    if (type_of(message) != FIXGW_TYPE_LOGON)
        return "no Logon";
    if (!desk)
        return "nobody that we know";
    if (desk->line)
        return "this peer has a line up already";
    struct fixgw_session record = desk->record;
    if (fixgw_session_reconnect(&record) || !keep(desk, &record, NULL, NULL))
        return "its record is damaged, or cannot be kept";
    desk->line = line;
    line->desk = desk;
    return NULL;
}

static bool is_admitted(struct line *line, uint64_t time, const struct message *message)
{
    const char *why_not = why_not_admitted(line, message);
    tell_reads(line, 0);
    if (why_not) {
        ledger_turned_away(time, message, why_not);
        hang_up(line, time, "the host hangs up");
    } else
        ledger_known(time, &line->desk->record);
    return !why_not;
}

/* ---- Messages of the venue's own --------------------------------------------------------------------------------- */

/* A message that answers none: what the call that wrote it left of the record and of the store, and the message. */
struct own {
    struct fixgw_session record;
    uint8_t *store;                         /* NULL: as it was */
    uint8_t bytes[FIXGW_LEAST_REPLY_ROOM];
    uint64_t len[1];
};

/* Keeps the record, then sends the message. Nothing if the call wrote none and refused nothing. */
static void send_own(struct line *line, uint64_t time, const struct own *own, uint32_t refusal, const char *why)
{
    if (!refusal && own->len[0] == 0)
        return;
    if (!keep(line->desk, &own->record, own->store, NULL)) {
        hang_up(line, time, "the host hangs up: the record cannot be kept, so nothing is sent");
        return;
    }
    if (refusal) {
        hang_up(line, time, refusal_words(refusal));
        return;
    }
    ledger_own(time, own->bytes, own->len[0], why);
    if (!send_out(line, own->bytes, own->len[0]))
        hang_up(line, time, "the host hangs up: the peer takes nothing");
}

/* ---- Trades ------------------------------------------------------------------------------------------------------ */

static void give(struct fixgw_report_draft *draft, uint32_t tag, const char *text)
{
    if (text)
        fixgw_report_give(draft, tag, (const uint8_t *)text, strlen(text));
}

static void fill(struct fixgw_report_draft *draft, const struct trade *trade)
{
    fixgw_report_empty(draft);
    give(draft, FIXGW_TAG_TRADE_REPORT_ID, trade->id);
    give(draft, FIXGW_TAG_TRD_TYPE, trade->type);
    give(draft, FIXGW_TAG_TRANSACT_TIME, trade->time);
    fixgw_report_give_decimal(draft, FIXGW_TAG_LAST_QTY, trade->quantity.whole, trade->quantity.places);
    fixgw_report_give_decimal(draft, FIXGW_TAG_LAST_PX, trade->price.whole, trade->price.places);
    give(draft, FIXGW_TAG_SETTL_DATE, trade->settles);
    give(draft, FIXGW_TAG_MATCH_TYPE, trade->match);
    give(draft, FIXGW_TAG_SECURITY_ID, trade->security);
    give(draft, FIXGW_TAG_SECURITY_ID_SOURCE, "8");
    give(draft, FIXGW_TAG_SIDE, trade->side);
    give(draft, FIXGW_TAG_SIDE_EXEC_ID, trade->execution);
    for (const struct trade_party *party = trade->parties; party->id; party++)
        fixgw_report_add_party(draft, (const uint8_t *)party->id, strlen(party->id), (const uint8_t *)"D", 1,
                               (const uint8_t *)party->role, strlen(party->role));
}

/* What the ledger says of a report that goes out, read back from it. */
static void explain_report(const struct own *own, const char *front, char *words, size_t room)
{
    struct message message = message_of(own->bytes, own->len[0]);
    struct trade_report report = { { 0 }, message.body };
    uint64_t out[3];
    size_t used = (size_t)snprintf(words, room, "%s", front);
    fixgw_report_values(message.body, message.body_len, report.values, out);
    trade_words(&report, words + used, room - used);
}

/* Values that no report may have are told, and leave the session as it was. */
static void send_report(struct line *line, uint64_t time, const struct trade *trade)
{
    char words[WORDS_ROOM];
    struct own own = { .record = line->desk->record, .store = copy_of_store(line->desk) };
    struct fixgw_report_draft draft;
    fill(&draft, trade);
    uint32_t refusal = fixgw_session_report(&own.record, &draft, time, own.bytes, sizeof own.bytes, own.store,
                                            FIXGW_STORE, own.len);
    if (refusal == FIXGW_REFUSED_VALUE || refusal == FIXGW_REFUSED_REPORT_LENGTH) {
        snprintf(words, sizeof words, "is not reported: refusal %u, %s", refusal, refusal_words(refusal));
        ledger_trade(time, trade->id, words);
        return;
    }
    if (!refusal) {
        explain_report(&own, "the venue reports ", words, sizeof words);
        reports++;
    }
    send_own(line, time, &own, refusal, words);
}

static bool is_logged_on(const struct desk *desk)
{
    return desk->line && desk->record.words[FIXGW_WORD_STATUS] == FIXGW_ACTIVE;
}

/* Tells the member of a trade. While it is away the trade waits: it is told once it is sent, and nobody has to ask. */
static void report_trade(const struct trade *trade, uint64_t time)
{
    struct value member = { (const uint8_t *)trade->member, strlen(trade->member) };
    for (struct desk *desk = desks; desk < desks + desk_count; desk++) {
        if (!is_comp_id(member, desk->record.peer, desk->record.peer_len))
            continue;
        late[trade - trades] = is_logged_on(desk) ? NULL : desk;
        if (is_logged_on(desk))
            send_report(desk->line, time, trade);
        else
            ledger_trade(time, trade->id, "waits: its member is not logged on");
    }
}

/* A member that asks for trades is told of those in the book, on a line that is served. */
static void answer_request(struct line *line, uint64_t time, const struct message *in)
{
    const struct fixgw_session *record = &line->desk->record;
    for (size_t i = 0; i < TRADES && answers_requests && line->state == UP; i++) {
        struct value member = { (const uint8_t *)trades[i].member, strlen(trades[i].member) };
        if (type_of(in) == FIXGW_TYPE_TRADE_CAPTURE_REPORT_REQUEST && is_comp_id(member, record->peer, record->peer_len))
            send_report(line, time, &trades[i]);
    }
}

/* The member is back: what waited goes out. */
static void report_late(struct line *line, uint64_t time)
{
    for (size_t i = 0; i < TRADES; i++)
        if (line->state == UP && line->desk && late[i] == line->desk) {
            late[i] = NULL;
            send_report(line, time, &trades[i]);
        }
}

/* ---- What is sent again ------------------------------------------------------------------------------------------ */

static void explain_replayed(const struct own *own, char *words, size_t room)
{
    struct message message = message_of(own->bytes, own->len[0]);
    uint64_t from = number_in(first_field(&message, FIXGW_TAG_MSG_SEQ_NUM));
    uint64_t behind = number_in(first_field(&message, FIXGW_TAG_NEW_SEQ_NO));
    if (type_of(&message) == FIXGW_TYPE_TRADE_CAPTURE_REPORT)
        explain_report(own, "replay: once more ", words, room);
    else if (behind - from == 1)
        snprintf(words, room, "replay: no report is kept under %lu: gap fill", (unsigned long)from);
    else
        snprintf(words, room, "replay: no report is kept under %lu to %lu: gap fill", (unsigned long)from,
                 (unsigned long)(behind - 1));
}

/* A step has started a replay: it is worked off at once, message by message, each kept and sent before the next is
   written. So it is over before the next frame is read, no report of a trade comes into it, and only a line that breaks
   leaves it unfinished; the reconnect drops it then. */
static void work_off_replay(struct line *line, uint64_t time)
{
    char words[WORDS_ROOM];
    while (line->state == UP && line->desk->record.words[FIXGW_WORD_REPLAY_AT]) {
        struct own own = { .record = line->desk->record };
        uint32_t refusal = fixgw_session_replay(&own.record, time, own.bytes, sizeof own.bytes, line->desk->store,
                                                FIXGW_STORE, own.len);
        if (!refusal)
            explain_replayed(&own, words, sizeof words);
        send_own(line, time, &own, refusal, words);
    }
}

/* ---- The loop ---------------------------------------------------------------------------------------------------- */

/* The step is taken on a copy, so that what is in memory is what is on disk, also where keeping fails; of the store too,
   where a Logon may zero it: while Active no step writes to it. */
static void take_frame(struct line *line, uint64_t time, const uint8_t *frame, size_t len)
{
    uint8_t reply[FIXGW_LEAST_REPLY_ROOM], *changed = NULL;
    uint64_t out[2];
    struct message in = message_of(frame, len);
    if (!line->desk && !is_admitted(line, time, &in))
        return;
    struct step step = { .before = line->desk->record, .after = line->desk->record, .in = in };
    if (step.before.words[FIXGW_WORD_STATUS] != FIXGW_ACTIVE)
        changed = copy_of_store(line->desk);
    step.refusal = fixgw_session_step(&step.after, frame, len, time, reply, sizeof reply,
                                      changed ? changed : line->desk->store, FIXGW_STORE, out);
    step.delivered = out[0];
    take_reply(&step, reply, out[1]);
    if (!keep(line->desk, &step.after, changed, step.delivered ? &in : NULL)) {
        hang_up(line, time, "the host hangs up: the record cannot be kept, so nothing is sent");
        return;
    }
    bool is_sent = send_out(line, reply, out[1]);
    tell_reads(line, 0);
    ledger_step(time, &step);
    line->heard = time;
    line->asked = 0;
    if (step.delivered)
        deliver(&in);
    if (is_sent)
        work_off_replay(line, time);
    if (is_sent && step.delivered)
        answer_request(line, time, &in);
    if (is_sent && step.before.words[FIXGW_WORD_STATUS] != FIXGW_ACTIVE)
        report_late(line, time);
    if (line->state != UP)
        return;
    if (step.after.words[FIXGW_WORD_STATUS] == FIXGW_CLOSED)
        hang_up(line, time, "the host hangs up: the session is Closed");
    else if (!is_sent)
        hang_up(line, time, "the host hangs up: the peer takes nothing");
}

static void read_frames(struct line *line, uint64_t time)
{
    uint64_t found[2];
    while (fixgw_read(line->bytes, line->held, found) == FIXGW_OK) {
        uint64_t behind = line->held - found[0] - found[1];
        tell_noise(line, time, found[0]);
        take_frame(line, time, line->bytes + found[0], found[1]);
        if (line->state != UP) {
            ledger_left(time, behind);
            return;
        }
        line->held = fixgw_drop(line->bytes, LINE_ROOM, line->held, found[0] + found[1]);
    }
    tell_noise(line, time, found[0]);
    line->held = fixgw_drop(line->bytes, LINE_ROOM, line->held, found[0]);
}

/* Reads only when what was put holds a byte 1, with which every good frame ends, or has filled the buffer: docs/HOST.md,
   "Bytes of the line", has why nothing is lost by that. */
static void take_read(struct line *line, uint64_t time, const uint8_t *piece, size_t len)
{
    line->reads++;
    line->came += len;
    line->last_read = time;
    while (len > 0 && line->state == UP) {
        uint64_t put = fixgw_put(line->bytes, LINE_ROOM, line->held, piece, len);
        if (put == 0) {
            hang_up(line, time, "the host hangs up: its line buffer is too short for a frame");
            return;
        }
        bool may_end_a_frame = memchr(piece, 1, put) != NULL;
        line->held += put;
        piece += put;
        len -= put;
        if (may_end_a_frame || line->held == LINE_ROOM)
            read_frames(line, time);
    }
}

/* ---- The clock --------------------------------------------------------------------------------------------------- */

static void send_heartbeat(struct line *line, uint64_t time)
{
    struct own own = { .record = line->desk->record };
    uint32_t refusal = fixgw_session_tick(&own.record, time, own.bytes, sizeof own.bytes, own.len);
    send_own(line, time, &own, refusal, "tick: the heartbeat interval has passed since the last message out");
}

static void ask(struct line *line, uint64_t time)
{
    char id[32];
    struct own own = { .record = line->desk->record };
    size_t len = (size_t)snprintf(id, sizeof id, "TEST-%lu", (unsigned long)own.record.words[FIXGW_WORD_NEXT_OUT]);
    uint32_t refusal = fixgw_session_test_request(&own.record, (const uint8_t *)id, len, time, own.bytes,
                                                  sizeof own.bytes, own.len);
    line->asked = time;
    send_own(line, time, &own, refusal, "the host asks whether the peer is there: it has been silent");
}

static void log_out(struct line *line, uint64_t time)
{
    struct own own = { .record = line->desk->record };
    uint32_t refusal = fixgw_session_logout(&own.record, time, own.bytes, sizeof own.bytes, own.len);
    send_own(line, time, &own, refusal, "the host ends the session: its question was not answered; Closed");
    if (line->state == UP)
        hang_up(line, time, "the host hangs up: the session is Closed");
}

/* The host's own patience, for the gateway has none: the peer's interval and a fifth of it, a second at least. */
static uint64_t patience_with(const struct desk *desk)
{
    uint64_t interval = desk->record.words[FIXGW_WORD_HEARTBEAT] * SECOND;
    return interval + (interval / 5 > SECOND ? interval / 5 : SECOND);
}

/* Once a second for every line that is up. */
static void tick(struct line *line, uint64_t time)
{
    tell_reads(line, line->held);
    if (!line->desk) {
        if (since(line->heard, time) >= SECONDS_TO_LOG_ON * SECOND)
            hang_up(line, time, "the host hangs up: nobody logs on");
        return;
    }
    send_heartbeat(line, time);
    if (line->state != UP || line->desk->record.words[FIXGW_WORD_STATUS] != FIXGW_ACTIVE)
        return;
    if (line->asked && since(line->asked, time) >= patience_with(line->desk))
        log_out(line, time);
    else if (!line->asked && since(line->heard, time) >= patience_with(line->desk))
        ask(line, time);
}

static void tick_all(uint64_t time)
{
    for (unsigned i = 0; i < LINES; i++) {
        ledger_of(i + 1);
        if (lines[i].state == UP)
            tick(&lines[i], time);
    }
}

static void end_ledger(void)
{
    ledger_foot();
    printf("Delivered: %lu Order Cancel Requests, %lu Trade Capture Report Requests. Reported: %lu trades.\n",
           (unsigned long)cancels, (unsigned long)trade_requests, (unsigned long)reports);
}

static uint32_t new_desk(struct desk *desk, const char *ours, const char *peer)
{
    desk->line = NULL;
    memset(desk->store, 0, sizeof desk->store);
    return fixgw_session_new(&desk->record, (const uint8_t *)ours, strlen(ours), (const uint8_t *)peer, strlen(peer));
}

/* ---- A recorded day ---------------------------------------------------------------------------------------------- */

static const struct trade *trade_named(const char *id)
{
    size_t place = 0;
    while (place < TRADES - 1 && strcmp(trades[place].id, id) != 0)
        place++;
    return &trades[place];
}

static void play_read(struct line *line, const struct entry *entry)
{
    static uint8_t bytes[READ_ROOM];
    size_t len = strlen(entry->bytes);
    for (size_t i = 0; i < len; i++)
        bytes[i] = entry->bytes[i] == '|' ? 1 : (uint8_t)entry->bytes[i];
    uint64_t time = entry->time;
    for (size_t at = 0; at < len; at += entry->longest) {
        take_read(line, time, bytes + at, len - at < entry->longest ? len - at : entry->longest);
        time += BETWEEN_READS;
    }
}

static void play_entry(const struct entry *entry)
{
    struct line *line = &lines[entry->line - 1];
    ledger_of(entry->line);
    if (entry->event == CONNECT)
        connected(line, entry->time, -1);
    else if (entry->event == READ)
        play_read(line, entry);
    else if (entry->event == TRADE)
        report_trade(trade_named(entry->bytes), entry->time);
    else
        gone(line, entry->time, "the connection breaks");
}

/* The venue's clock ticks once a second. */
static int play_day(void)
{
    static struct desk two[2];
    desks = two;
    desk_count = 2;
    new_desk(&two[0], "GW", "MM");
    new_desk(&two[1], "GW", "MM2");
    ledger_head(day[0].time);
    uint64_t now = day[0].time;
    for (size_t i = 0; i < sizeof day / sizeof day[0]; i++) {
        for (now = now - now % SECOND + SECOND; now <= day[i].time; now += SECOND)
            tick_all(now);
        play_entry(&day[i]);
        now = day[i].time;
    }
    for (now = now - now % SECOND + SECOND; now < AFTER_THE_DAY; now += SECOND)
        tick_all(now);
    end_ledger();
    return 0;
}

/* ---- Lines on 127.0.0.1 ------------------------------------------------------------------------------------------ */

struct address {
    uint16_t family;
    uint8_t port[2], ip[4], zero[8];
};

struct wanted {
    int socket;
    short events, got;
};

struct duration {
    long seconds, microseconds;
};

int socket(int, int, int);
int setsockopt(int, int, int, const void *, uint32_t);
int bind(int, const struct address *, uint32_t);
int getsockname(int, struct address *, uint32_t *);
int listen(int, int);
int accept(int, struct address *, uint32_t *);
int poll(struct wanted *, unsigned long, int);

enum {
    INTERNET = 2, STREAM = 1, SOCKET_LEVEL = 1, REUSE_ADDRESS = 2, SEND_TIMEOUT = 21, READABLE = 1, WALL_CLOCK = 0,
    BETWEEN_LOOKS = 100,                    /* milliseconds */
    SECONDS_TO_SEND = 5,
    SECONDS_TO_CONNECT = 60
};

static uint64_t clock_now(void)
{
    struct timespec now = { 0, 0 };
    clock_gettime(WALL_CLOCK, &now);
    return (uint64_t)now.tv_sec * SECOND + (uint64_t)now.tv_nsec / 1000;
}

static int complain(const char *what)
{
    fflush(NULL);
    write(2, "run: ", 5);
    write(2, what, strlen(what));
    write(2, "\n", 1);
    return 1;
}

/* A listening socket on 127.0.0.1, below 0 if there is none; it says on which port. */
static int listen_on(uint16_t port)
{
    struct address here = { INTERNET, { (uint8_t)(port >> 8), (uint8_t)port }, { 127, 0, 0, 1 }, { 0 } };
    uint32_t size = sizeof here;
    int yes = 1, listener = socket(INTERNET, STREAM, 0);
    if (listener < 0)
        return -1;
    setsockopt(listener, SOCKET_LEVEL, REUSE_ADDRESS, &yes, sizeof yes);
    if (bind(listener, &here, sizeof here) || listen(listener, LINES) || getsockname(listener, &here, &size)) {
        close(listener);
        return -1;
    }
    printf("listening on 127.0.0.1:%u\n", here.port[0] * 256u + here.port[1]);
    fflush(NULL);
    return listener;
}

/* A peer that takes nothing for some seconds is given up, so that it holds up no other line for longer. */
static void take_connection(int listener)
{
    struct duration patience = { SECONDS_TO_SEND, 0 };
    unsigned place = 0;
    int peer = accept(listener, NULL, NULL);
    while (place < LINES && lines[place].state != DOWN)
        place++;
    if (peer >= 0 && place == LINES)
        close(peer);
    if (peer < 0 || place == LINES)
        return;
    setsockopt(peer, SOCKET_LEVEL, SEND_TIMEOUT, &patience, sizeof patience);
    ledger_of(place + 1);
    connected(&lines[place], clock_now(), peer);
}

static void take_bytes(struct line *line)
{
    uint8_t bytes[READ_ROOM];
    long len = read(line->socket, bytes, sizeof bytes);
    if (len > 0 && line->state == UP)
        take_read(line, clock_now(), bytes, (size_t)len);
    if (len > 0)
        return;
    if (line->state == UP)
        gone(line, clock_now(), "the peer hangs up");
    close(line->socket);
    line->state = DOWN;
}

static void end_drained(uint64_t time)
{
    for (size_t i = 0; i < LINES; i++)
        if (lines[i].state == DRAINING && since(lines[i].left, time) >= SECONDS_TO_DRAIN * SECOND) {
            close(lines[i].socket);
            lines[i].state = DOWN;
        }
}

/* Waits for a connection or bytes, and takes them; whether a line is left. */
static bool look(int listener)
{
    struct wanted wanted[LINES + 1] = { { listener, READABLE, 0 } };
    bool any = false;
    for (size_t i = 0; i < LINES; i++) {
        struct wanted bytes = { lines[i].state == DOWN ? -1 : lines[i].socket, READABLE, 0 };
        wanted[i + 1] = bytes;
        any = any || lines[i].state != DOWN;
    }
    poll(wanted, LINES + 1, BETWEEN_LOOKS);
    for (unsigned i = 0; i < LINES; i++) {
        ledger_of(i + 1);
        if (wanted[i + 1].got)
            take_bytes(&lines[i]);
    }
    if (wanted[0].got)
        take_connection(listener);
    return any || wanted[0].got;
}

/* Serves up to the end of the last line; false if none came. */
static bool serve(int listener)
{
    uint64_t began = clock_now(), ticked = began;
    bool any = false;
    while (look(listener) || !any) {
        uint64_t now = clock_now();
        any = any || lines[0].state != DOWN;
        if (!any && since(began, now) >= SECONDS_TO_CONNECT * SECOND)
            return false;
        if (now / SECOND != ticked / SECOND)
            tick_all(ticked = now);
        end_drained(now);
        fflush(NULL);
    }
    return true;
}

static int serve_all(uint16_t port, const char *ours, const char *peer)
{
    struct desk desk;
    desks = &desk;
    desk_count = 1;
    answers_requests = true;
    if (new_desk(&desk, ours, peer))
        return complain("a CompID has 1 to 11 bytes");
    int listener = listen_on(port);
    if (listener < 0)
        return complain("the port cannot be had");
    ledger_head(clock_now());
    if (!serve(listener))
        return complain("nobody connects");
    end_ledger();
    return 0;
}

static bool port_of(const char *text, uint16_t *port)
{
    struct value digits = { (const uint8_t *)text, strlen(text) };
    uint64_t number = number_in(digits);
    *port = (uint16_t)number;
    return number <= 65535 && (number > 0 || strcmp(text, "0") == 0);
}

int main(int count, char **words)
{
    uint16_t port;
    if (count == 1)
        return play_day();
    if ((count != 3 && count != 5) || strcmp(words[1], "--serve") != 0 || !port_of(words[2], &port))
        return complain("usage: ./run [--serve PORT [OURS PEER]]");
    return count == 5 ? serve_all(port, words[3], words[4]) : serve_all(port, "GW", "MM");
}
