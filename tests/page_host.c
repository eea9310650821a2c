/* A venue around the host of docs/HOST.md (page.c, as it is printed): one peer, MM for GW, a disk that can fail, and a
   clock that the test sets. It plays lines, counts readings and prints what went out; tests/pages knows what that must
   be. */
#include <fixgw.h>
#include <stdio.h>

static unsigned long readings;

static uint32_t counted_read(const uint8_t *bytes, size_t len, uint64_t out[2])
{
    readings++;
    return fixgw_read(bytes, len, out);
}

#define fixgw_read counted_read
#include "page.c"

static struct peer peer;
static uint64_t now = 1704187800000000, step_of_clock;
static int disk_fails;

struct peer *find(const uint8_t *sender, size_t sender_len, const uint8_t *target, size_t target_len)
{
    int is_known = sender_len == 2 && memcmp(sender, "MM", 2) == 0 && target_len == 2 && memcmp(target, "GW", 2) == 0;
    return is_known ? &peer : NULL;
}

int keep(struct peer *of, const struct fixgw_session *session, const uint8_t *store, const uint8_t *frame, size_t len)
{
    (void)len;
    if (disk_fails)
        return 1;
    of->session = *session;
    if (store)
        memcpy(of->store, store, FIXGW_STORE);
    if (frame)
        printf("kept with a frame\n");
    return 0;
}

void deliver(const uint8_t *frame, size_t len)
{
    (void)frame;
    printf("delivered %lu bytes\n", (unsigned long)len);
}

uint64_t now_us(void)
{
    now += step_of_clock;
    return now;
}

static void print_bytes(const uint8_t *bytes, size_t len)
{
    for (size_t i = 0; i < len; i++)
        printf("%c", bytes[i] == 1 ? '|' : bytes[i]);
}

/* A frame around a body in which `|` is the byte 1. */
static size_t frame_of(uint8_t *to, const char *body)
{
    char front[32];
    size_t len = strlen(body), at = 0;
    uint32_t sum = 0;
    for (const char *text = "8=FIXT.1.1|9="; *text; text++)
        front[at++] = *text;
    if (len >= 100)
        front[at++] = (char)('0' + len / 100);
    front[at++] = (char)('0' + len / 10 % 10);
    front[at++] = (char)('0' + len % 10);
    front[at++] = '|';
    memcpy(to, front, at);
    memcpy(to + at, body, len);
    at += len;
    for (size_t i = 0; i < at; i++) {
        to[i] = to[i] == '|' ? 1 : to[i];
        sum += to[i];
    }
    sum %= 256;
    memcpy(to + at, "10=ddd\1", 7);
    to[at + 3] = (uint8_t)('0' + sum / 100);
    to[at + 4] = (uint8_t)('0' + sum / 10 % 10);
    to[at + 5] = (uint8_t)('0' + sum % 10);
    return at + 7;
}

#define NOISE 9000
#define HEADER(type, sender, number) "35=" type "|49=" sender "|56=GW|34=" number "|52=20240102-09:30:00|"
#define LOGON(sender, number) HEADER("A", sender, number) "98=0|108=30|1137=9|"
#define ORDER(number) HEADER("F", "MM", number) "11=C|41=O|54=1|48=133215|22=8|60=20240102-09:30:00|"

/* One connection: noise of so many bytes, then the messages; the peer ends its side at once or stays. */
static void play(const char *what, size_t noise, const char *const *bodies, int stays)
{
    static uint8_t bytes[NOISE + 4096], came[8192];
    int pair[2];
    size_t len = noise;
    memset(bytes, 'x', noise);
    for (; *bodies; bodies++)
        len += frame_of(bytes + len, *bodies);
    struct fixgw_session before = peer.session;
    int had_line = peer.has_line;
    socketpair(AF_UNIX, SOCK_STREAM, 0, pair);
    send(pair[1], bytes, len, 0);
    if (!stays)
        shutdown(pair[1], SHUT_WR);
    printf("%s\n", what);
    serve(pair[0]);
    ssize_t got = recv(pair[1], came, sizeof came, MSG_DONTWAIT);
    print_bytes(came, got > 0 ? (size_t)got : 0);
    printf("\n%s, E %lu, next out %lu, status %lu, line %d to %d\n",
           memcmp(&before, &peer.session, sizeof before) ? "changed" : "untouched",
           (unsigned long)peer.session.words[FIXGW_WORD_EXPECTED],
           (unsigned long)peer.session.words[FIXGW_WORD_NEXT_OUT],
           (unsigned long)peer.session.words[FIXGW_WORD_STATUS], had_line, peer.has_line);
    close(pair[1]);
}

/* A Logon behind noise, both in single bytes: where the answer comes, and how often that was read. */
static void play_bytes(const char *what, size_t noise)
{
    static uint8_t bytes[NOISE + 1024], came[1024];
    int pair[2], goes_on = 1;
    ssize_t got = -1;
    size_t at = 0, len;
    fixgw_session_new(&peer.session, (const uint8_t *)"GW", 2, (const uint8_t *)"MM", 2);
    memset(bytes, 'x', noise);
    len = noise + frame_of(bytes + noise, LOGON("MM", "1"));
    socketpair(AF_UNIX, SOCK_STREAM, 0, pair);
    struct line line = { .socket = pair[0], .heard = now };
    readings = 0;
    while (goes_on && got <= 0 && at < len) {
        goes_on = take_bytes(&line, bytes + at++, 1);
        got = recv(pair[1], came, sizeof came, MSG_DONTWAIT);
    }
    printf("%s: %s, %lu bytes to come, %lu readings\n", what, goes_on ? "on" : "off", (unsigned long)(len - at), readings);
    print_bytes(came, got > 0 ? (size_t)got : 0);
    printf("\n");
    close(pair[1]);
    hang_up(&line);
}

/* One trade on a line that is up. */
static void play_trade(const char *what, const char *id)
{
    struct trade trade = { id, "20240102-09:30:00", "133215", "1", "FIRM", 1250, 10125, 0, 0 };
    uint8_t came[1024];
    int pair[2];
    socketpair(AF_UNIX, SOCK_STREAM, 0, pair);
    struct line line = { .socket = pair[0], .peer = &peer };
    int goes_on = report(&line, &trade);
    printf("%s: %s, refusal %u, %s\n", what, goes_on ? "on" : "off", trade.refusal, trade.is_told ? "told" : "not told");
    ssize_t got = recv(pair[1], came, sizeof came, MSG_DONTWAIT);
    print_bytes(came, got > 0 ? (size_t)got : 0);
    printf("\nnext out %lu\n", (unsigned long)peer.session.words[FIXGW_WORD_NEXT_OUT]);
    close(pair[0]);
    close(pair[1]);
}

static void play_trades(void)
{
    fixgw_session_new(&peer.session, (const uint8_t *)"GW", 2, (const uint8_t *)"MM", 2);
    play_trade("a trade while Waiting", "T-1");
    peer.session.words[FIXGW_WORD_STATUS] = FIXGW_ACTIVE;
    play_trade("a trade alone", "T-1");
    play_trade("a trade with too long a name", "A-TRADE-WITH-A-NAME-OF-33-LETTERS");
    disk_fails = 1;
    play_trade("a trade while the disk fails", "T-2");
    disk_fails = 0;
}

int main(void)
{
    static const char *const talk[] = {
        LOGON("MM", "1"), ORDER("2"), HEADER("5", "MM", "3"), HEADER("0", "MM", "4"), NULL
    };
    static const char *const again[] = { LOGON("MM", "4"), NULL }, *const other[] = { LOGON("XX", "1"), NULL };
    static const char *const no_logon[] = { HEADER("0", "MM", "4"), NULL };
    static const char *const silent[] = { LOGON("MM", "5"), NULL };
    static const char *const asking[] = { LOGON("MM", "1"), HEADER("2", "MM", "2") "7=1|16=0|", NULL };
    static const char *const anew[] = { LOGON("MM", "1") "141=Y|", HEADER("2", "MM", "2") "7=1|16=0|", NULL };
    printf("version %s\n", fixgw_version() == FIXGW_VERSION ? "as compiled" : "another");
    fixgw_session_new(&peer.session, (const uint8_t *)"GW", 2, (const uint8_t *)"MM", 2);
    play("talk, behind noise", NOISE, talk, 0);
    play("a stranger", 0, other, 0);
    play("no Logon", 0, no_logon, 0);
    peer.has_line = 1;
    play("its line is up", 0, again, 0);
    peer.has_line = 0;
    disk_fails = 1;
    play("the disk fails", 0, again, 0);
    disk_fails = 0;
    play("and works again", 0, again, 0);
    step_of_clock = 20000000;
    play("silence", 0, silent, 1);
    step_of_clock = 0;
    now = 1704187800000000;
    play_trades();
    now += 60000000;
    play("asked for again", 0, asking, 0);
    play("begun anew", 0, anew, 0);
    play_bytes("byte by byte", 0);
    play_bytes("byte by byte, behind noise", NOISE);
    return 0;
}
