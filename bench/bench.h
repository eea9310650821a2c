/* What the bench's files share: what is measured, the records that are set back, both sides held to each other. */
#ifndef BENCH_H
#define BENCH_H

#include "../host/libc.h"
#include "fixgw.h"
#include "plain.h"

enum { LONG = 200000 };                     /* bytes of the longest rows */

#define CALL_TIME 1704187800000000u         /* 20240102-09:30:00.000000 */
#define NUMBERED(type, number) "35=" type "|49=MM|56=GW|34=" number "|52=20240102-09:30:00.000000|"
#define HEADER(type) NUMBERED(type, "2")

/* The report that is measured, as it goes out and as it is read. */
#define REPORT_HEADER "35=AE|49=GW|56=MM|34=2|52=20240102-09:30:00.000000|"
#define REPORT_TRADE "571=TR-20240102-000001|828=0|60=20240102-09:29:59.999999|32=1250.50|31=101.2575|64=20240104|" \
    "574=4|48=GB00BH4HKS39|22=8|"
#define REPORT_SIDE "552=1|54=1|1427=EX-20240102-000001|"
#define REPORT_PARTIES "453=2|448=MEMBERFIRM|447=D|452=1|448=TRADER-0000007|447=D|452=12|"

/* At a fixed place in their line of the cache, as memchr's way depends on it. */
#define ALIGNED _Alignas(64)

struct bytes {
    ALIGNED uint8_t at[LONG + 8];
    size_t len, body, body_len;             /* of a frame also where its body lies */
    size_t each;                            /* of frames in a row the length of one */
};

/* One side of what is measured, on the bytes of its row. */
typedef void run(const uint8_t *bytes, size_t len);

extern struct bytes report;
extern uint64_t sink;                       /* so that no call is left out as useless */
extern const struct fixgw_session active;   /* the record of the calls that are measured */

/* A frame around a body in text. */
void make_frame(struct bytes *frame, const char *body);

/* A record's CompIDs by their lengths, and its words behind the version. */
#define RECORD(ours_len, peer_len, ...) \
    { ours_len, "GW", peer_len, "MM", { FIXGW_RECORD_VERSION, __VA_ARGS__ } }

/* One with no replay running, and with a gap open. */
#define IN_GAP(status, expected, open_for, highest, asked) \
    RECORD(2, 2, status, expected, 10, 30, 0, 0, 0, 1, open_for, highest, asked)

/* The same record for the plain side. */
struct plain_session plain_of(const struct fixgw_session *session);

/* The records of the calls that are measured, with all that a call may change set back to this one. */
struct fixgw_session *set_back(const struct fixgw_session *to);
struct plain_session *set_back_plain(const struct plain_session *to);
extern struct plain_session plain_active;

/* The stores that both sides are lent, and all zeros. Both become these bytes. */
extern uint8_t our_store[FIXGW_STORE], plain_store[FIXGW_STORE];
extern const uint8_t no_reports[FIXGW_STORE];
void lend(const uint8_t store[FIXGW_STORE]);

void insist(int holds, const char *what);

/* Both sides of one call on a session: the records, the buffers and the stores behind it must be the same, byte by byte.
   Each is made on the stores as they were lent last. */
struct pair {
    const char *what;
    struct fixgw_session ours;
    struct plain_session plain;
    uint8_t our_reply[FIXGW_LEAST_REPLY_ROOM], plain_reply[FIXGW_LEAST_REPLY_ROOM];
};

struct pair pair_on(const struct fixgw_session *session, const char *what);
void check_pair(const struct pair *pair, uint32_t refusal, uint32_t plain_refusal, size_t reply_len);
void check_step(const char *what, const struct fixgw_session *session, const struct bytes *frame, size_t len, uint64_t time,
                size_t room);

/* The type of the first message of a reply, which has one byte; 0 for no reply. */
uint8_t first_type(const uint8_t *reply, size_t len);

/* ---- Readings (bench_read.c) ------------------------------------------------------------------------------------- */

/* A frame's sum as it must be. */
void mend_sum(uint8_t *frame, size_t len);

/* Frames of all kinds, and each front of this one. */
void check_readings(const struct bytes *longest);

/* The library's sum, which is no call of it: crates/measured. */
uint8_t measured_sum(const uint8_t *s, size_t n);
run sum_ours, sum_plain;
void check_sums(const uint8_t *bytes);

/* ---- A line (bench_stream.c) ------------------------------------------------------------------------------------- */

run stream_ours, stream_plain;              /* read behind each byte */
run sparing_ours, sparing_plain;            /* read behind a byte 1 alone */
run piece_ours, piece_plain;                /* put and dropped */

/* The bytes one by one, all ways; pieces of all kinds. */
void check_streams(const uint8_t *bytes, size_t len);
void check_pieces(void);

/* ---- Fields (bench_fields.c) ------------------------------------------------------------------------------------- */

extern struct bytes few_fields, some_fields, many_fields;

void make_bodies(void);
run first_field_ours, first_field_plain;    /* on a body */

/* One body in text; bodies of all kinds. */
void check_first_field(const char *text);
void check_fields(void);

/* ---- Replies (bench_replies.c) ----------------------------------------------------------------------------------- */

extern struct bytes logon, reset_logon, logout, unclean, too_high, duplicate, logout_out, test_request_out;

void make_replies(void);
run active_step_ours, active_step_plain, waiting_step_ours, waiting_step_plain, gap_step_ours, gap_step_plain;
run logout_ours, logout_plain, test_request_ours, test_request_plain;

/* Logouts and Test Requests of all kinds on one record; the steps and calls that are measured. */
void check_messages(const struct fixgw_session *session);
void check_replies(void);

/* ---- The writer (bench_write.c) ---------------------------------------------------------------------------------- */

extern struct bytes heartbeat_out, logon_out, reject_out;

void make_drafts(void);
run message_ours, message_plain;
void check_writer(void);

/* ---- Reports (bench_report.c) ------------------------------------------------------------------------------------ */

void make_draft(void);
uint64_t report_on(struct fixgw_session *session, uint8_t store[FIXGW_STORE]);
uint64_t plain_report_on(struct plain_session *session, uint8_t store[FIXGW_STORE]);
void report_ours(void);
void report_plain(void);
void values_ours(const uint8_t *body, size_t len);
void values_plain(const uint8_t *body, size_t len);

/* Fills the store with reports under these numbers, one behind the other, at the time of the calls. */
void fill_store(uint8_t store[FIXGW_STORE], uint64_t first, uint64_t last);

/* Reports of all kinds on one record; one body in text, read back; bodies of reports of all kinds, read back; each of
   these by a function of its own. */
void check_report_on(const char *what, const struct fixgw_session *session);
void check_reports(const struct fixgw_session *session);
void check_values(const char *text);
void check_report_bodies(void);
void each_report_body(void (*check)(const char *text));

/* ---- Stores (bench_store.c) -------------------------------------------------------------------------------------- */

extern uint8_t full_store[FIXGW_STORE];
extern struct bytes gap_fill, gap_fill_of_all;

void make_stores(void);
void report_full_ours(void);
void report_full_plain(void);
void replay_report_ours(void);
void replay_report_plain(void);
void replay_fill_ours(void);
void replay_fill_plain(void);

/* Replay calls on one record; on places of all kinds; the calls that are measured. */
void check_replays(const struct fixgw_session *session);
void check_places(void);
void check_stores(void);

#endif
