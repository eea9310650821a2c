/* How the ledger is laid out: a row for each event, messages with `|` for the byte 1, wrapped behind a field. */
#include "ledger.h"

enum {
    WIDTH = 120,
    INDENT = 24,                            /* of what stands below a row */
    BELOW = INDENT + 3,                     /* of what goes on below a => */
    MOST_SHOWN = 380,                       /* of bytes that are no message */
    WORDS = 300,
    CHANGE = 80,
    CHANGES = 560                           /* of all changes of any numbers */
};

#define SECOND 1000000u
#define DAY (86400u * (uint64_t)SECOND)

static uint64_t frames_in, messages_out, delivered, bytes_of_noise;
static unsigned line_of_rows = 1;

/* ---- Time -------------------------------------------------------------------------------------------------------- */

struct date {
    unsigned year, month, day;
};

static bool is_leap(unsigned year)
{
    return year % 4 == 0 && (year % 100 != 0 || year % 400 == 0);
}

static unsigned days_of_month(unsigned year, unsigned month)
{
    static const unsigned char days[12] = { 31, 28, 31, 30, 31, 30, 31, 31, 30, 31, 30, 31 };
    return days[month - 1] + (month == 2 && is_leap(year) ? 1u : 0u);
}

static struct date date_of(uint64_t time)
{
    struct date date = { 1970, 1, 1 };
    uint64_t days = time / DAY;
    while (days >= (is_leap(date.year) ? 366u : 365u))
        days -= is_leap(date.year++) ? 366u : 365u;
    while (days >= days_of_month(date.year, date.month))
        days -= days_of_month(date.year, date.month++);
    date.day += (unsigned)days;
    return date;
}

void clock_words(uint64_t time, char words[CLOCK])
{
    uint64_t second = time % DAY / SECOND;
    snprintf(words, CLOCK, "%02u:%02u:%02u.%06u", (unsigned)(second / 3600), (unsigned)(second / 60 % 60),
             (unsigned)(second % 60), (unsigned)(time % SECOND));
}

/* A row's front: the time, which way, and of which line unless it is the first. */
static void print_row(uint64_t time, const char *way)
{
    char clock[CLOCK];
    clock_words(time, clock);
    printf("%s  %s", clock, way);
    if (line_of_rows > 1)
        printf(" %u%*s", line_of_rows, (int)(5 - strlen(way)), "");
    else
        printf("%*s", (int)(7 - strlen(way)), "");
}

/* ---- Bytes ------------------------------------------------------------------------------------------------------- */

static size_t print_byte(uint8_t byte)
{
    if (byte == 1)
        return (size_t)printf("|");
    if (byte >= ' ' && byte <= '~')
        return (size_t)printf("%c", byte);
    return (size_t)printf("\\x%02x", byte);
}

/* How many columns the bytes take up to and with the next `|`. */
static size_t columns_of_field(const uint8_t *bytes, size_t len)
{
    size_t columns = 0;
    for (size_t i = 0; i < len; i++) {
        columns += bytes[i] == 1 || (bytes[i] >= ' ' && bytes[i] <= '~') ? 1 : 4;
        if (bytes[i] == 1)
            break;
    }
    return columns;
}

static void print_indent(void)
{
    printf("%*s", INDENT, "");
}

static void print_bytes(const uint8_t *bytes, size_t len)
{
    size_t column = INDENT;
    print_indent();
    for (size_t i = 0; i < len; i++) {
        bool may_break = column > INDENT && bytes[i - 1] == 1;
        if (column >= WIDTH || (may_break && column + columns_of_field(bytes + i, len - i) > WIDTH)) {
            printf("\n");
            print_indent();
            column = INDENT;
        }
        column += print_byte(bytes[i]);
    }
    printf("\n");
}

/* ---- What changed in the record ---------------------------------------------------------------------------------- */

static const char *status_name(uint64_t status)
{
    static const char *const names[] = { "Waiting", "Active", "Closed" };
    return status <= FIXGW_CLOSED ? names[status] : "no status";
}

/* Appends one change; `used` is how much of the room is taken. */
static void add(char *changes, size_t *used, const char *change)
{
    *used += (size_t)snprintf(changes + *used, CHANGES - *used, "%s%s", *used > 1 ? ", " : "", change);
}

static void add_change(char *changes, size_t *used, const char *name, uint64_t before, uint64_t after)
{
    char change[CHANGE];
    if (before == after)
        return;
    snprintf(change, sizeof change, "%s %lu -> %lu", name, (unsigned long)before, (unsigned long)after);
    add(changes, used, change);
}

static void add_asked(char *changes, size_t *used, uint64_t time)
{
    char clock[CLOCK], change[CHANGE];
    clock_words(time, clock);
    snprintf(change, sizeof change, "asked at %s", clock);
    add(changes, used, change);
}

static void add_opened_gap(char *changes, size_t *used, const uint64_t *new)
{
    char change[CHANGE];
    snprintf(change, sizeof change, "gap open for %lu, highest %lu", (unsigned long)new[FIXGW_WORD_GAP_FOR],
             (unsigned long)new[FIXGW_WORD_GAP_HIGHEST]);
    add(changes, used, change);
    add_asked(changes, used, new[FIXGW_WORD_GAP_ASKED]);
}

static void add_gap(char *changes, size_t *used, const uint64_t *old, const uint64_t *new)
{
    bool was_open = old[FIXGW_WORD_GAP_OPEN], is_open = new[FIXGW_WORD_GAP_OPEN];
    if (was_open && !is_open)
        add(changes, used, "gap closed");
    if (!was_open && is_open)
        add_opened_gap(changes, used, new);
    if (!was_open || !is_open)
        return;
    add_change(changes, used, "gap for", old[FIXGW_WORD_GAP_FOR], new[FIXGW_WORD_GAP_FOR]);
    add_change(changes, used, "highest", old[FIXGW_WORD_GAP_HIGHEST], new[FIXGW_WORD_GAP_HIGHEST]);
    if (old[FIXGW_WORD_GAP_ASKED] != new[FIXGW_WORD_GAP_ASKED])
        add_asked(changes, used, new[FIXGW_WORD_GAP_ASKED]);
}

static void list_changes(const struct fixgw_session *before, const struct fixgw_session *after, char changes[CHANGES])
{
    const uint64_t *old = before->words, *new = after->words;
    size_t used = (size_t)snprintf(changes, CHANGES, "[");
    if (old[FIXGW_WORD_STATUS] != new[FIXGW_WORD_STATUS])
        used += (size_t)snprintf(changes + used, CHANGES - used, "%s -> %s", status_name(old[FIXGW_WORD_STATUS]),
                                 status_name(new[FIXGW_WORD_STATUS]));
    add_change(changes, &used, "E", old[FIXGW_WORD_EXPECTED], new[FIXGW_WORD_EXPECTED]);
    add_change(changes, &used, "next out", old[FIXGW_WORD_NEXT_OUT], new[FIXGW_WORD_NEXT_OUT]);
    add_change(changes, &used, "heartbeat", old[FIXGW_WORD_HEARTBEAT], new[FIXGW_WORD_HEARTBEAT]);
    add_change(changes, &used, "replay at", old[FIXGW_WORD_REPLAY_AT], new[FIXGW_WORD_REPLAY_AT]);
    add_change(changes, &used, "replay to", old[FIXGW_WORD_REPLAY_TO], new[FIXGW_WORD_REPLAY_TO]);
    add_gap(changes, &used, old, new);
    snprintf(changes + used, CHANGES - used, "%s]", used > 1 ? "" : "no change");
}

/* ---- Rows -------------------------------------------------------------------------------------------------------- */

void ledger_head(uint64_t time)
{
    struct date date = date_of(time);
    printf("Ledger of %04u-%02u-%02u, UTC: what came in from the member, what the gateway made of it (=>), ", date.year,
           date.month, date.day);
    printf("what went out.\n"
           "`|` is the byte 1, N the number of a message that came in, E the number expected before it.\n");
}

void ledger_line(uint64_t time, const char *what)
{
    print_row(time, "line");
    printf("%s\n", what);
}

void ledger_of(unsigned line)
{
    line_of_rows = line;
}

void ledger_connected(uint64_t time)
{
    printf("\n");
    ledger_line(time, "a peer connects");
}

void ledger_known(uint64_t time, const struct fixgw_session *session)
{
    const uint64_t *words = session->words;
    print_row(time, "line");
    printf("it is %.*s, for %.*s: %s, E %lu, next out %lu\n", session->peer_len, (const char *)session->peer,
           session->ours_len, (const char *)session->ours, status_name(words[FIXGW_WORD_STATUS]),
           (unsigned long)words[FIXGW_WORD_EXPECTED], (unsigned long)words[FIXGW_WORD_NEXT_OUT]);
}

void ledger_came(uint64_t time, uint64_t reads, uint64_t bytes, uint64_t pending)
{
    if (reads == 0 || (reads == 1 && pending == 0))
        return;
    print_row(time, "line");
    printf("%lu bytes in %lu read%s", (unsigned long)bytes, (unsigned long)reads, reads == 1 ? "" : "s");
    if (pending)
        printf("; no whole frame yet, %lu pending", (unsigned long)pending);
    printf("\n");
}

void ledger_noise(uint64_t time, const uint8_t *bytes, size_t len, size_t held)
{
    char words[WORDS];
    if (len == 0)
        return;
    explain_noise(bytes, len, held, words, sizeof words);
    print_row(time, "line");
    printf("%lu byte%s skipped: %s\n", (unsigned long)len, len == 1 ? "" : "s", words);
    print_bytes(bytes, len < MOST_SHOWN ? len : MOST_SHOWN);
    bytes_of_noise += len;
}

void ledger_left(uint64_t time, uint64_t bytes)
{
    if (bytes == 0)
        return;
    print_row(time, "line");
    printf("%lu bytes behind it are not looked at\n", (unsigned long)bytes);
}

static void print_message(uint64_t time, const char *way, const struct message *message)
{
    uint64_t number = number_in(first_field(message, FIXGW_TAG_MSG_SEQ_NUM));
    bool is_duplicate = value_is(first_field(message, FIXGW_TAG_POSS_DUP_FLAG), "Y");
    print_row(time, way);
    printf("%s", type_name(type_of(message)));
    if (number)
        printf(" %lu", (unsigned long)number);
    printf("%s\n", is_duplicate ? ", PossDup" : "");
    print_bytes(message->frame, message->len);
}

static void print_out(uint64_t time, const struct message *message)
{
    print_message(time, "out", message);
    messages_out++;
}

void take_reply(struct step *step, const uint8_t *reply, size_t len)
{
    uint64_t found[2];
    step->replies = 0;
    while (step->replies < 2 && fixgw_read(reply, len, found) == FIXGW_OK) {
        step->reply[step->replies++] = message_of(reply + found[0], found[1]);
        reply += found[0] + found[1];
        len -= found[0] + found[1];
    }
}

static size_t print_new_line(void)
{
    printf("\n%*s", BELOW, "");
    return BELOW;
}

/* How long the words are up to the next place where a line may break: behind a `,`, `;` or `:` before a space. */
static size_t length_of_piece(const char *words)
{
    size_t len = 1;
    while (words[len] && !(words[len] == ' ' && (words[len - 1] == ',' || words[len - 1] == ';' || words[len - 1] == ':')))
        len++;
    return len;
}

/* Words from a column on, in as many lines as they need; the column behind them. */
static size_t print_words(const char *words, size_t column)
{
    const char *space = "";
    for (size_t len; *words; words += len + (words[len] == ' ')) {
        len = length_of_piece(words);
        if (column + strlen(space) + len > WIDTH) {
            column = print_new_line();
            space = "";
        }
        column += (size_t)printf("%s%.*s", space, (int)len, words);
        space = " ";
    }
    return column;
}

/* What changes in the record follows on the same line, or on the next if that has no room for it. */
static void print_decision(const char *words, const char *changes)
{
    print_indent();
    printf("=> ");
    size_t column = print_words(words, BELOW);
    if (column + 2 + strlen(changes) <= WIDTH)
        printf("  %s\n", changes);
    else {
        print_words(changes, print_new_line());
        printf("\n");
    }
}

void ledger_step(uint64_t time, const struct step *step)
{
    char words[WORDS], changes[CHANGES];
    explain(step, words, sizeof words);
    list_changes(&step->before, &step->after, changes);
    print_message(time, "in", &step->in);
    print_decision(words, changes);
    for (size_t i = 0; i < step->replies; i++)
        print_out(time, &step->reply[i]);
    frames_in++;
    delivered += step->delivered;
}

void ledger_turned_away(uint64_t time, const struct message *message, const char *why)
{
    print_message(time, "in", message);
    print_indent();
    printf("=> the host: %s\n", why);
    frames_in++;
}

void ledger_trade(uint64_t time, const char *id, const char *what)
{
    print_row(time, "venue");
    printf("trade %s %s\n", id, what);
}

void ledger_own(uint64_t time, const uint8_t *bytes, size_t len, const char *why)
{
    struct message message = message_of(bytes, len);
    print_out(time, &message);
    print_indent();
    printf("=> %s\n", why);
}

void ledger_foot(void)
{
    printf("\n%lu frames in, %lu delivered, %lu messages out, %lu bytes skipped.\n", (unsigned long)frames_in,
           (unsigned long)delivered, (unsigned long)messages_out, (unsigned long)bytes_of_noise);
}
