/* The calls by which a C host reaches the gateway core of one FIXT 1.1 session (libfixgw.a). Documents 01 and 02
   decide what each call answers; this header says it in C terms. `|` stands for the byte 1. */
#ifndef FIXGW_H
#define FIXGW_H

/* The version of this header, as major * 10000 + minor * 100 + patch. fixgw_version() answers that of the library. */
#define FIXGW_VERSION 20300

/* Only these two headers are needed. A compiler that has none, but names its types, is served as well. */
#ifdef __has_include
#if __has_include(<stdint.h>) && __has_include(<stddef.h>)
#define FIXGW_HAS_HEADERS 1
#endif
#else
#define FIXGW_HAS_HEADERS 1
#endif

#ifdef FIXGW_HAS_HEADERS
#include <stddef.h>
#include <stdint.h>
#else
typedef __SIZE_TYPE__ size_t;
typedef __UINT8_TYPE__ uint8_t;
typedef __UINT32_TYPE__ uint32_t;
typedef __UINT64_TYPE__ uint64_t;
#endif

#ifdef __cplusplus
extern "C" {
#endif

/* What holds for every call

   - A slice is a pointer and a length. NULL with length 0 is an empty slice; otherwise the pointer is good for `length`
     bytes, that of words for as many words. An array, `uint64_t out[2]`, is a pointer that is good for as many elements
     and is never NULL. Bytes may lie at any address, a store's too.
   - What a call may write (no const) overlaps nothing else that the same call is given.
   - Nothing else is asked of the caller: every number, every byte and every length may be given, and each input has
     exactly one outcome.
   - A call returns 0 or the number of a refusal, and writes every word of `out` in either case. Only fixgw_put and
     fixgw_drop answer counts, and fixgw_version a version.
   - A time is in microseconds since 1970, UTC: `time_us`.
   - A call keeps nothing and uses nothing but what it is given: no global state, no allocation, no clock, no input or
     output. Calls on different memory may run at the same time in different threads. */

enum fixgw_refusal {
    FIXGW_OK = 0,
    FIXGW_REFUSED_NO_FRAME_YET = 1,         /* no whole frame yet */
    FIXGW_REFUSED_CLOSED = 2,               /* a step while Closed; a message of the venue's own outside Active */
    FIXGW_REFUSED_NOT_A_LOGON = 3,          /* the first message is not a Logon; the session is Closed */
    FIXGW_REFUSED_LOGON = 4,                /* the Logon's number, CompIDs or fields are wrong; the session is Closed */
    FIXGW_REFUSED_NUMBERS_USED_UP = 5,      /* a sequence number above 999,999,990; the session is Closed */
    FIXGW_REFUSED_REPLY_ROOM = 6,           /* a reply buffer under FIXGW_LEAST_REPLY_ROOM bytes */
    FIXGW_REFUSED_TIME = 7,                 /* a time at or past FIXGW_END_OF_TIME */
    FIXGW_REFUSED_VALUE = 8,                /* a value or a type to write that the dictionary would reject */
    FIXGW_REFUSED_WRITE_ROOM = 9,           /* the writer and a report: a buffer shorter than the message */
    FIXGW_REFUSED_NOT_A_FRAME = 10,         /* not exactly one good frame; for what is read from a body, no body */
    FIXGW_REFUSED_RECORD = 11,              /* the session's record breaks its ranges */
    FIXGW_REFUSED_REPORT_LENGTH = 12,       /* a report longer than FIXGW_REPORT_MOST bytes */
    FIXGW_REFUSED_REPLAYING = 13,           /* a report while a replay is running */
    FIXGW_REFUSED_STORE = 14                /* a store that has not FIXGW_STORE bytes */
};

/* 373, SessionRejectReason: what a verdict finds and what a Reject carries. */
enum fixgw_reason {
    FIXGW_REASON_INVALID_TAG = 0,
    FIXGW_REASON_REQUIRED_TAG_MISSING = 1,
    FIXGW_REASON_NOT_FOR_THIS_MESSAGE = 2,
    FIXGW_REASON_UNDEFINED_TAG = 3,
    FIXGW_REASON_NO_VALUE = 4,
    FIXGW_REASON_VALUE_INCORRECT = 5,
    FIXGW_REASON_DATA_FORMAT = 6,
    FIXGW_REASON_COMP_ID = 9,
    FIXGW_REASON_SENDING_TIME_ACCURACY = 10,
    FIXGW_REASON_INVALID_MSG_TYPE = 11,
    FIXGW_REASON_TAG_TWICE = 13,
    FIXGW_REASON_TAG_ORDER = 14,
    FIXGW_REASON_GROUP_ORDER = 15,
    FIXGW_REASON_GROUP_COUNT = 16,
    FIXGW_REASON_OTHER = 99
};

/* 1409, SessionStatus, of the Logouts that the gateway writes. */
enum fixgw_session_status {
    FIXGW_SESSION_LOGOUT_COMPLETE = 4,      /* the answer to a Logout */
    FIXGW_SESSION_ENDED_BY_GATEWAY = 101
};

/* 35, MsgType: one byte, or two as first * 256 + second. */
enum fixgw_type {
    FIXGW_TYPE_HEARTBEAT = 0x30,
    FIXGW_TYPE_TEST_REQUEST = 0x31,
    FIXGW_TYPE_RESEND_REQUEST = 0x32,
    FIXGW_TYPE_REJECT = 0x33,
    FIXGW_TYPE_SEQUENCE_RESET = 0x34,
    FIXGW_TYPE_LOGOUT = 0x35,
    FIXGW_TYPE_LOGON = 0x41,
    FIXGW_TYPE_ORDER_CANCEL_REQUEST = 0x46,             /* F */
    FIXGW_TYPE_TRADE_CAPTURE_REPORT_REQUEST = 0x4144,   /* AD */
    FIXGW_TYPE_TRADE_CAPTURE_REPORT = 0x4145            /* AE */
};

enum fixgw_tag {
    FIXGW_TAG_BEGIN_SEQ_NO = 7,
    FIXGW_TAG_BEGIN_STRING = 8,
    FIXGW_TAG_BODY_LENGTH = 9,
    FIXGW_TAG_CHECK_SUM = 10,
    FIXGW_TAG_CL_ORD_ID = 11,
    FIXGW_TAG_END_SEQ_NO = 16,
    FIXGW_TAG_SECURITY_ID_SOURCE = 22,
    FIXGW_TAG_LAST_PX = 31,
    FIXGW_TAG_LAST_QTY = 32,
    FIXGW_TAG_MSG_SEQ_NUM = 34,
    FIXGW_TAG_MSG_TYPE = 35,
    FIXGW_TAG_NEW_SEQ_NO = 36,
    FIXGW_TAG_ORIG_CL_ORD_ID = 41,
    FIXGW_TAG_POSS_DUP_FLAG = 43,
    FIXGW_TAG_REF_SEQ_NUM = 45,
    FIXGW_TAG_SECURITY_ID = 48,
    FIXGW_TAG_SENDER_COMP_ID = 49,
    FIXGW_TAG_SENDING_TIME = 52,
    FIXGW_TAG_SIDE = 54,
    FIXGW_TAG_TARGET_COMP_ID = 56,
    FIXGW_TAG_TEXT = 58,
    FIXGW_TAG_TRANSACT_TIME = 60,
    FIXGW_TAG_SETTL_DATE = 64,
    FIXGW_TAG_TRADE_DATE = 75,
    FIXGW_TAG_POSS_RESEND = 97,
    FIXGW_TAG_ENCRYPT_METHOD = 98,
    FIXGW_TAG_HEART_BT_INT = 108,
    FIXGW_TAG_TEST_REQ_ID = 112,
    FIXGW_TAG_ORIG_SENDING_TIME = 122,
    FIXGW_TAG_GAP_FILL_FLAG = 123,
    FIXGW_TAG_RESET_SEQ_NUM_FLAG = 141,
    FIXGW_TAG_SUBSCRIPTION_REQUEST_TYPE = 263,
    FIXGW_TAG_REF_TAG_ID = 371,
    FIXGW_TAG_REF_MSG_TYPE = 372,
    FIXGW_TAG_SESSION_REJECT_REASON = 373,
    FIXGW_TAG_PARTY_ID_SOURCE = 447,
    FIXGW_TAG_PARTY_ID = 448,
    FIXGW_TAG_PARTY_ROLE = 452,
    FIXGW_TAG_NO_PARTY_IDS = 453,
    FIXGW_TAG_NO_SIDES = 552,
    FIXGW_TAG_TRADE_REQUEST_ID = 568,
    FIXGW_TAG_TRADE_REQUEST_TYPE = 569,
    FIXGW_TAG_TRADE_REPORT_ID = 571,
    FIXGW_TAG_MATCH_TYPE = 574,
    FIXGW_TAG_NO_DATES = 580,
    FIXGW_TAG_TRD_TYPE = 828,
    FIXGW_TAG_FIRM_TRADE_ID = 1041,
    FIXGW_TAG_APPL_VER_ID = 1128,
    FIXGW_TAG_DEFAULT_APPL_VER_ID = 1137,
    FIXGW_TAG_SESSION_STATUS = 1409,
    FIXGW_TAG_SIDE_EXEC_ID = 1427
};

/* ---- Bytes of the line ------------------------------------------------------------------------------------------- */

enum {
    FIXGW_LONGEST_FRAME = 2075,
    FIXGW_MOST_PENDING = 2074               /* what can stay in a line buffer once reading answers refusal 1 */
};

/* The version of the library: compare it with FIXGW_VERSION. */
uint32_t fixgw_version(void);

/* One reading of bytes[0..len).
   0: the leftmost good frame is bytes[out[0] .. out[0] + out[1]); the bytes before it are no part of any frame.
   1: there is none; no frame can ever begin in the first out[0] bytes, so they may be dropped; out[1] is 0. */
uint32_t fixgw_read(const uint8_t *bytes, size_t len, uint64_t out[2]);

/* Puts as much of a piece as there is room for behind the first `held` bytes of a line buffer.
   Returns a count: how many bytes of the piece were put, 0 if held is not below buf_len. The held bytes stay; so does
   what lies behind the bytes put. */
uint64_t fixgw_put(uint8_t *buf, size_t buf_len, uint64_t held, const uint8_t *piece, size_t piece_len);

/* Drops n bytes from the front of the `held` ones in a line buffer: the others move to its front.
   Returns a count: how many are held then, held - n, and 0 if n is at least held. A `held` above buf_len counts as
   buf_len. What lies behind the bytes held then means nothing. */
uint64_t fixgw_drop(uint8_t *buf, size_t buf_len, uint64_t held, uint64_t n);

/* ---- Fields of a body -------------------------------------------------------------------------------------------- */

/* A body is what lies between the `|` behind 9= and the 10= of a frame: 5 to 2,048 bytes, beginning 35= and ending
   with `|`. Anything else is refusal 10, and then every word of out is 0. */

/* Where the body of a frame lies.
   0: the body is frame[out[0] .. out[0] + out[1]). 10: the bytes are not exactly one good frame. */
uint32_t fixgw_body(const uint8_t *frame, size_t len, uint64_t out[2]);

/* What the dictionary finds in a body, the first finding from the left.
   0: out is {0, 0, 0} if it is clean, or {1, reason, tag}; tag is 0 where there is no readable one. */
uint32_t fixgw_verdict(const uint8_t *body, size_t len, uint64_t out[3]);

enum fixgw_part {
    FIXGW_PART_FIELD = 0,
    FIXGW_PART_MALFORMED = 1,               /* no `=`, or no tag of 1 to 5 digits without leading zero */
    FIXGW_PART_END = 2
};

/* The field of a body at place `at`; begin with 0 and go on with the place that is answered, up to the end.
   0: out is {what, tag, start, end, next}, `what` one of fixgw_part. Of a field body[start .. end) is the value, of a
   malformed part (tag 0) the part whole. At the end, which is also everywhere behind it, the other words are 0. */
uint32_t fixgw_field(const uint8_t *body, size_t len, uint64_t at, uint64_t out[5]);

/* The first field of a tag in a body, as a host asks before it knows whose record to take.
   0: out is {1, start, end}, body[start .. end) is its value; or {0, 0, 0} if no field has that tag. */
uint32_t fixgw_first_field(const uint8_t *body, size_t len, uint32_t tag, uint64_t out[3]);

/* ---- Writing one message ----------------------------------------------------------------------------------------- */

/* The places of the writer's values, in the order in which a message has them. Three words each, at 3 * place:
   {given, a, b}. `given` is 0 for an absent tag, so zero all of them before the first value is given. A number is a;
   any other value is the byte string text[a .. b). */
enum fixgw_place {
    FIXGW_PLACE_SENDER_COMP_ID = 0,         /* 49 */
    FIXGW_PLACE_TARGET_COMP_ID,             /* 56 */
    FIXGW_PLACE_MSG_SEQ_NUM,                /* 34, a number */
    FIXGW_PLACE_POSS_DUP_FLAG,              /* 43 */
    FIXGW_PLACE_SENDING_TIME,               /* 52 */
    FIXGW_PLACE_ORIG_SENDING_TIME,          /* 122 */
    FIXGW_PLACE_TEST_REQ_ID,                /* 112 */
    FIXGW_PLACE_BEGIN_SEQ_NO,               /* 7, a number */
    FIXGW_PLACE_END_SEQ_NO,                 /* 16, a number */
    FIXGW_PLACE_REF_SEQ_NUM,                /* 45, a number */
    FIXGW_PLACE_REF_TAG_ID,                 /* 371, a number */
    FIXGW_PLACE_REF_MSG_TYPE,               /* 372 */
    FIXGW_PLACE_SESSION_REJECT_REASON,      /* 373, a number */
    FIXGW_PLACE_SESSION_STATUS,             /* 1409, a number */
    FIXGW_PLACE_TEXT,                       /* 58 */
    FIXGW_PLACE_GAP_FILL_FLAG,              /* 123 */
    FIXGW_PLACE_NEW_SEQ_NO,                 /* 36, a number */
    FIXGW_PLACE_ENCRYPT_METHOD,             /* 98 */
    FIXGW_PLACE_HEART_BT_INT,               /* 108, a number */
    FIXGW_PLACE_DEFAULT_APPL_VER_ID,        /* 1137 */
    FIXGW_PLACE_RESET_SEQ_NUM_FLAG,         /* 141 */
    FIXGW_PLACES,
    FIXGW_VALUES = 3 * FIXGW_PLACES
};

/* Writes one of the seven administrative messages, whole, at the front of buf. It belongs to no session.
   0: out is {the message's length}; buf keeps its bytes behind it.
   8: another type, a value that the dictionary would reject, one that this message does not have, a byte string that
   does not lie in text, or a required value absent. 9: buf is too short. Under both out is {0} and buf keeps all of its
   bytes. */
uint32_t fixgw_write(const uint8_t *type, size_t type_len, const uint64_t values[FIXGW_VALUES],
                     const uint8_t *text, size_t text_len, uint8_t *buf, size_t buf_len, uint64_t out[1]);

static inline void fixgw_give_number(uint64_t values[FIXGW_VALUES], enum fixgw_place place, uint64_t number)
{
    values[3 * (size_t)place] = 1;
    values[3 * (size_t)place + 1] = number;
}

static inline void fixgw_give_bytes(uint64_t values[FIXGW_VALUES], enum fixgw_place place, uint64_t start, uint64_t end)
{
    values[3 * (size_t)place] = 1;
    values[3 * (size_t)place + 1] = start;
    values[3 * (size_t)place + 2] = end;
}

/* ---- The session ------------------------------------------------------------------------------------------------- */

enum fixgw_status { FIXGW_WAITING = 0, FIXGW_ACTIVE = 1, FIXGW_CLOSED = 2 };

/* The record of a session: 216 bytes without padding, which may be kept, copied and compared as they are. One that an
   older version kept is taken as it is: a word that was not used then is zero, and zero means none, no replay and no
   gap. */
enum fixgw_word {
    FIXGW_WORD_VERSION = 0,                 /* of the record: FIXGW_RECORD_VERSION */
    FIXGW_WORD_STATUS,                      /* one of fixgw_status */
    FIXGW_WORD_EXPECTED,                    /* E, the number of the peer's next message, 1 to 999,999,999 */
    FIXGW_WORD_NEXT_OUT,                    /* the number of our next message, 1 to 999,999,999 */
    FIXGW_WORD_HEARTBEAT,                   /* seconds, 1 to 60 */
    FIXGW_WORD_LAST_SENT,                   /* when we last sent a message, in microseconds since 1970; any number */
    FIXGW_WORD_REPLAY_AT,                   /* the next number of a replay, which runs while Active alone; 0: none runs */
    FIXGW_WORD_REPLAY_TO,                   /* the last number asked for, not below that, but below next out; or 0 too */
    FIXGW_WORD_GAP_OPEN,                    /* 1 while a gap in the peer's numbers is open; else 0, and so the next three */
    FIXGW_WORD_GAP_FOR,                     /* the E that the peer was asked to resend from, 1 to 999,999,999 */
    FIXGW_WORD_GAP_HIGHEST,                 /* the highest number seen, 1 to 999,999,999 */
    FIXGW_WORD_GAP_ASKED,                   /* when it was last asked for, in microseconds since 1970; any number */
    FIXGW_WORDS_USED,                       /* from here on all are zero, and kept for versions to come */
    FIXGW_WORDS = 24
};

enum {
    FIXGW_RECORD_VERSION = 1,
    FIXGW_COMP_ID = 11,                     /* bytes of a CompID's place; those behind its length mean nothing */
    FIXGW_COMP_IDS = 24,                    /* bytes of both with their lengths */
    FIXGW_LEAST_REPLY_ROOM = 600,
    FIXGW_LONGEST_REPLY = 546               /* by count, the longest report again; that 600 suffice is proved */
};

struct fixgw_session {
    uint8_t ours_len, ours[FIXGW_COMP_ID];  /* our CompID, 1 to 11 bytes */
    uint8_t peer_len, peer[FIXGW_COMP_ID];  /* the peer's */
    uint64_t words[FIXGW_WORDS];
};

typedef char fixgw_session_has_no_padding[sizeof(struct fixgw_session) == 216 ? 1 : -1];

#define FIXGW_END_OF_TIME 253402300800000000u   /* the first microsecond of the year 10000 */

/* The store of a session: the host lends it beside the record, to the same session each time, and keeps both together.
   It holds the last 64 reports, each whole in a place of its own with zeros behind it. A new session's is all zeros; an
   accepted Logon with 141=Y zeroes it. A place in which no report of this session stands as fixgw_report writes it
   counts as empty, whatever its bytes are, and so does the second of two with one number. Under a refusal no byte of a
   store changes. */
enum {
    FIXGW_STORE_PLACES = 64,
    FIXGW_STORE_PLACE = 512,                /* bytes */
    FIXGW_STORE = FIXGW_STORE_PLACES * FIXGW_STORE_PLACE        /* 32,768 bytes; of another length it is refusal 14 */
};

/* Every call on a record takes its two parts: comp_ids, the 24 bytes at its front, and words, with how many there are.
   Use the functions over struct fixgw_session below. A record is refused (11) if it breaks its ranges, and also if it
   has another number of words or another version, or if a word that is kept for later is not zero: so a host that was
   built for another version is refused, and nothing of its memory is touched. */

/* Fills the record of a new session: Waiting, both numbers 1, heartbeat 30, last sent 0, no replay, no gap. Lend it a store
   of zeros.
   11: a CompID is not 1 to 11 bytes without `|`. The record is then as new, but Closed and with two empty CompIDs; no
   step is taken on it. With another number of words than FIXGW_WORDS nothing is written. */
uint32_t fixgw_new(uint8_t comp_ids[FIXGW_COMP_IDS], uint64_t *words, size_t words_len,
                   const uint8_t *our_id, size_t our_len, const uint8_t *peer_id, size_t peer_len);

/* The peer has a new connection: the status becomes Waiting, an unfinished replay is dropped, everything else stays, an
   open gap too: the next accepted Logon closes it.
   11: the record breaks its ranges and stays as it is. */
uint32_t fixgw_reconnect(const uint8_t comp_ids[FIXGW_COMP_IDS], uint64_t *words, size_t words_len);

/* Takes one frame, moves the record on and writes what is to be sent.
   0: out is {delivered, reply length}. delivered is 1 if the frame is an application message (AD, F) for the host to
   act on, else 0. buf[0 .. reply length) holds no, one or two messages to send, in order; buf keeps its bytes behind
   them. The store is zeroed by an accepted Logon with 141=Y, and stays as it is otherwise.
   A Resend Request that can be served only starts a replay, in place of one that is running: FIXGW_WORD_REPLAY_AT is
   then not 0. Send what is in buf, and call fixgw_replay until it is 0 again.
   A message whose number is above E opens a gap: the peer is asked to resend from E, once. While the gap is open further
   such messages ask again only if E has moved since, ten seconds have passed, or the clock has gone back behind the
   asking. It is closed once E is above the highest number seen, by an accepted Logon, and by a Sequence Reset without
   123=Y that is taken; a Logon above E opens one anew. A host does nothing for it but keep the record.
   11, 14, 10, 7, 6, 2, 5, 3, 4, looked for in this order: out is {0, 0}, buf and store keep all of their bytes, and the
   record stays as it is, except that 5, 3 and 4 set it Closed. What closes a session drops an unfinished replay. */
uint32_t fixgw_step(const uint8_t comp_ids[FIXGW_COMP_IDS], uint64_t *words, size_t words_len,
                    const uint8_t *frame, size_t frame_len, uint64_t time_us, uint8_t *buf, size_t buf_len,
                    uint8_t *store, size_t store_len, uint64_t out[2]);

/* Writes the next message of a replay, in the order of the numbers: a report that the store holds goes out again under
   its old number, with 43=Y, time_us as its 52 and its first 52 as 122; each longest run of other numbers up to the last
   one asked for is one gap fill. It uses no new number; last sent becomes time_us, and the record's place moves on.
   0: out is {message length}, 0 if no replay is running, and then nothing changes; buf keeps its bytes behind the
   message.
   11, 14, 7, 6, looked for in this order: out is {0}, buf keeps all of its bytes, and the record stays as it is. */
uint32_t fixgw_replay(const uint8_t comp_ids[FIXGW_COMP_IDS], uint64_t *words, size_t words_len,
                      uint64_t time_us, uint8_t *buf, size_t buf_len, const uint8_t *store, size_t store_len,
                      uint64_t out[1]);

/* Looks whether a Heartbeat is due, and writes it.
   0: out is {reply length}, 0 if nothing is due; the record moves on only if something is written; buf keeps its bytes
   behind the reply.
   11, 7, 6, 5, looked for in this order (5 only while Active): out is {0}, buf keeps all of its bytes, and the record
   stays as it is, except that 5 sets it Closed. */
uint32_t fixgw_tick(const uint8_t comp_ids[FIXGW_COMP_IDS], uint64_t *words, size_t words_len,
                    uint64_t time_us, uint8_t *buf, size_t buf_len, uint64_t out[1]);

/* The venue ends the session: writes a Logout with 1409=101 under the next number, and the record is Closed.
   0: out is {reply length}. 11, 7, 6, 2 (it is not Active), 5, looked for in this order: out is {0}, buf keeps all of
   its bytes, and the record stays as it is, except that 5 sets it Closed. */
uint32_t fixgw_logout(const uint8_t comp_ids[FIXGW_COMP_IDS], uint64_t *words, size_t words_len,
                      uint64_t time_us, uint8_t *buf, size_t buf_len, uint64_t out[1]);

/* The venue asks whether the peer is there: writes a Test Request with this 112 under the next number. The peer answers
   with a Heartbeat that has the same 112; what to do if it does not is the host's to say.
   0: out is {reply length}. 11, 7, 6, 2 (it is not Active), 5, 8 (112 is not 1 to 64 bytes without `|`), looked for in
   this order: out is {0}, buf keeps all of its bytes, and the record stays as it is, except that 5 sets it Closed. */
uint32_t fixgw_test_request(const uint8_t comp_ids[FIXGW_COMP_IDS], uint64_t *words, size_t words_len,
                            const uint8_t *id, size_t id_len, uint64_t time_us, uint8_t *buf, size_t buf_len,
                            uint64_t out[1]);

/* ---- Trade capture reports --------------------------------------------------------------------------------------- */

/* A report's values as the two calls below take and give them, one layout both ways: FIXGW_REPORT_WORDS words with a
   text beside them, the host's for a report that is written, the body itself for one that is read.
   A value has three words at 3 * place: {given, a, b}. `given` is 0 for an absent one. The two decimals are the whole
   number a, all their digits without the point, with b places behind it: 12.50 is {1, 1250, 2}. Any other value is the
   byte string text[a .. b).
   Behind these stands the number of parties, and then of each party, without a word for `given`, the start and the end
   in the text of 448, of 447 and of 452. The counts 552 and 453 are no values: 552 is 1, and 453 is written if there is
   a party. */
enum fixgw_report_place {
    FIXGW_REPORT_PLACE_TRADE_REPORT_ID = 0, /* 571, 1 to 32 bytes */
    FIXGW_REPORT_PLACE_TRD_TYPE,            /* 828: 0 regular trade, 54 PC trade, 99 RFQ trade */
    FIXGW_REPORT_PLACE_TRANSACT_TIME,       /* 60, YYYYMMDD-HH:MM:SS, alone or with 3 or 6 decimals */
    FIXGW_REPORT_PLACE_LAST_QTY,            /* 32, a decimal */
    FIXGW_REPORT_PLACE_LAST_PX,             /* 31, a decimal */
    FIXGW_REPORT_PLACE_SETTL_DATE,          /* 64, YYYYMMDD, optional */
    FIXGW_REPORT_PLACE_MATCH_TYPE,          /* 574: 2 PC trade, 4 continuous trading, 7 auction, 22 RFQ trade */
    FIXGW_REPORT_PLACE_SECURITY_ID,         /* 48, 1 to 32 bytes */
    FIXGW_REPORT_PLACE_SECURITY_ID_SOURCE,  /* 22: 8 */
    FIXGW_REPORT_PLACE_SIDE,                /* 54: 1 buy, 2 sell */
    FIXGW_REPORT_PLACE_SIDE_EXEC_ID,        /* 1427, 1 to 32 bytes, optional */
    FIXGW_REPORT_TAGS
};

enum {
    FIXGW_REPORT_PARTIES = 8,               /* the most that a report has */
    FIXGW_REPORT_WORD_PARTIES = 3 * FIXGW_REPORT_TAGS,  /* the number of parties */
    FIXGW_REPORT_WORD_PARTY,                            /* six words for each party from here on */
    FIXGW_REPORT_WORDS = FIXGW_REPORT_WORD_PARTY + 6 * FIXGW_REPORT_PARTIES,    /* 82 */
    FIXGW_REPORT_MOST = FIXGW_STORE_PLACE   /* bytes of the longest report: a buffer of so many has room for each */
};

/* Writes one Trade Capture Report, whole, at the front of buf, under the session's next number; last sent becomes
   time_us. Use struct fixgw_report_draft and its functions below to fill the values.
   0: out is {report length}, at most FIXGW_REPORT_MOST; buf keeps its bytes behind it. The report stands in the store's
   first empty place or, if there is none, in that of the lowest number; the other places stay.
   11, 13 (a replay is running), 14, 7, 2 (it is not Active), 5, 8, 12 (the report would be longer than
   FIXGW_REPORT_MOST), 9 (buf is shorter than the report), looked for in this order: out is {0}, buf and store keep all
   of their bytes, and the record stays as it is, except that 5 sets it Closed. 8 is a value that the dictionary would
   reject, a required one absent, a byte string that does not lie in text, a decimal above 999,999,999,999,999 or with
   more than 8 places, or more than 8 parties. */
uint32_t fixgw_report(const uint8_t comp_ids[FIXGW_COMP_IDS], uint64_t *words, size_t words_len,
                      const uint64_t values[FIXGW_REPORT_WORDS], const uint8_t *text, size_t text_len,
                      uint64_t time_us, uint8_t *buf, size_t buf_len, uint8_t *store, size_t store_len,
                      uint64_t out[1]);

/* The values of the Trade Capture Report that a body is, as from a log (fixgw_body finds the body of a frame). It
   belongs to no session, and asks nothing of the order of the fields that the verdict does not ask.
   0: out is {0, 0, 0} and values holds them, with places in the body; the words of what is absent are 0. Or the body is
   no clean report: out is {1, reason, tag} as fixgw_verdict has it, {1, 11, 35} for a clean body of another type, and
   every word of values is 0. 10: no body; every word of out and of values is 0. */
uint32_t fixgw_report_values(const uint8_t *body, size_t len, uint64_t values[FIXGW_REPORT_WORDS], uint64_t out[3]);

/* ---- A report's values, filled and read -------------------------------------------------------------------------- */

/* The place of a tag among a report's values, FIXGW_REPORT_TAGS for any other tag. */
static inline size_t fixgw_report_place_of(uint32_t tag)
{
    static const uint32_t tags[FIXGW_REPORT_TAGS] = {
        FIXGW_TAG_TRADE_REPORT_ID, FIXGW_TAG_TRD_TYPE, FIXGW_TAG_TRANSACT_TIME, FIXGW_TAG_LAST_QTY, FIXGW_TAG_LAST_PX,
        FIXGW_TAG_SETTL_DATE, FIXGW_TAG_MATCH_TYPE, FIXGW_TAG_SECURITY_ID, FIXGW_TAG_SECURITY_ID_SOURCE,
        FIXGW_TAG_SIDE, FIXGW_TAG_SIDE_EXEC_ID
    };
    size_t place = 0;
    while (place < FIXGW_REPORT_TAGS && tags[place] != tag)
        place++;
    return place;
}

static inline int fixgw_report_is_decimal(size_t place)
{
    return place == FIXGW_REPORT_PLACE_LAST_QTY || place == FIXGW_REPORT_PLACE_LAST_PX;
}

/* A report that is being filled: its values, and the text that their bytes are copied into, one behind the other. Empty
   it, give each value once, add the parties in order, and hand it to fixgw_session_report. What the functions below
   cannot take (another tag, bytes for a decimal or a decimal for bytes, more bytes than there is room for, a ninth
   party) is not left out: the report then counts nine parties, which is refusal 8. */
enum { FIXGW_REPORT_TEXT = 512 };           /* bytes; all that a report may hold has 414 */

struct fixgw_report_draft {
    uint64_t values[FIXGW_REPORT_WORDS];
    size_t text_len;
    uint8_t text[FIXGW_REPORT_TEXT];
};

static inline void fixgw_report_empty(struct fixgw_report_draft *draft)
{
    for (size_t i = 0; i < FIXGW_REPORT_WORDS; i++)
        draft->values[i] = 0;
    draft->text_len = 0;
}

static inline void fixgw_report_spoil(struct fixgw_report_draft *draft)
{
    draft->values[FIXGW_REPORT_WORD_PARTIES] = FIXGW_REPORT_PARTIES + 1;
}

/* Copies bytes behind the others and puts their start and end into two words. */
static inline void fixgw_report_put(struct fixgw_report_draft *draft, uint64_t *start_end, const uint8_t *bytes,
                                    size_t len)
{
    if (len > FIXGW_REPORT_TEXT - draft->text_len) {
        fixgw_report_spoil(draft);
        return;
    }
    start_end[0] = draft->text_len;
    for (size_t i = 0; i < len; i++)
        draft->text[draft->text_len++] = bytes[i];
    start_end[1] = draft->text_len;
}

/* Gives 571, 828, 60, 64, 574, 48, 22, 54 or 1427. */
static inline void fixgw_report_give(struct fixgw_report_draft *draft, uint32_t tag, const uint8_t *bytes, size_t len)
{
    size_t place = fixgw_report_place_of(tag);
    if (place == FIXGW_REPORT_TAGS || fixgw_report_is_decimal(place)) {
        fixgw_report_spoil(draft);
        return;
    }
    draft->values[3 * place] = 1;
    fixgw_report_put(draft, &draft->values[3 * place + 1], bytes, len);
}

/* Gives 32 or 31: 12.50 is the whole number 1250 with 2 places. */
static inline void fixgw_report_give_decimal(struct fixgw_report_draft *draft, uint32_t tag, uint64_t whole,
                                             uint64_t places)
{
    size_t place = fixgw_report_place_of(tag);
    if (!fixgw_report_is_decimal(place)) {
        fixgw_report_spoil(draft);
        return;
    }
    draft->values[3 * place] = 1;
    draft->values[3 * place + 1] = whole;
    draft->values[3 * place + 2] = places;
}

/* Adds a party behind the others, whole: 448, 447 and 452. */
static inline void fixgw_report_add_party(struct fixgw_report_draft *draft, const uint8_t *id, size_t id_len,
                                          const uint8_t *source, size_t source_len, const uint8_t *role,
                                          size_t role_len)
{
    uint64_t *count = &draft->values[FIXGW_REPORT_WORD_PARTIES];
    if (*count >= FIXGW_REPORT_PARTIES) {
        fixgw_report_spoil(draft);
        return;
    }
    uint64_t *party = &draft->values[FIXGW_REPORT_WORD_PARTY + 6 * *count];
    (*count)++;
    fixgw_report_put(draft, party, id, id_len);
    fixgw_report_put(draft, party + 2, source, source_len);
    fixgw_report_put(draft, party + 4, role, role_len);
}

/* What stands in values, with their text: the body, behind fixgw_report_values. A value that is absent is {NULL, 0}, an
   absent decimal 0 with 9 places, which none has. */
struct fixgw_bytes { const uint8_t *at; size_t len; };
struct fixgw_decimal { uint64_t whole, places; };
struct fixgw_party { struct fixgw_bytes id, source, role; };    /* 448, 447, 452 */

static inline struct fixgw_bytes fixgw_report_bytes(const uint8_t *text, const uint64_t *start_end, int is_given)
{
    struct fixgw_bytes bytes = { 0, 0 };
    if (is_given) {
        bytes.at = text + start_end[0];
        bytes.len = (size_t)(start_end[1] - start_end[0]);
    }
    return bytes;
}

static inline struct fixgw_bytes fixgw_report_value(const uint64_t values[FIXGW_REPORT_WORDS], const uint8_t *text,
                                                    uint32_t tag)
{
    size_t place = fixgw_report_place_of(tag);
    int is_bytes = place < FIXGW_REPORT_TAGS && !fixgw_report_is_decimal(place);
    return fixgw_report_bytes(text, &values[3 * place + 1], is_bytes && values[3 * place] != 0);
}

static inline struct fixgw_decimal fixgw_report_decimal(const uint64_t values[FIXGW_REPORT_WORDS], uint32_t tag)
{
    size_t place = fixgw_report_place_of(tag);
    struct fixgw_decimal decimal = { 0, 9 };
    if (fixgw_report_is_decimal(place) && values[3 * place] != 0) {
        decimal.whole = values[3 * place + 1];
        decimal.places = values[3 * place + 2];
    }
    return decimal;
}

static inline size_t fixgw_report_parties(const uint64_t values[FIXGW_REPORT_WORDS])
{
    uint64_t count = values[FIXGW_REPORT_WORD_PARTIES];
    return count < FIXGW_REPORT_PARTIES ? (size_t)count : FIXGW_REPORT_PARTIES;
}

/* The party of this number, from 0 on. */
static inline struct fixgw_party fixgw_report_party(const uint64_t values[FIXGW_REPORT_WORDS], const uint8_t *text,
                                                    size_t number)
{
    int is_there = number < fixgw_report_parties(values);
    const uint64_t *words = &values[FIXGW_REPORT_WORD_PARTY + (is_there ? 6 * number : 0)];
    struct fixgw_party party;
    party.id = fixgw_report_bytes(text, words, is_there);
    party.source = fixgw_report_bytes(text, words + 2, is_there);
    party.role = fixgw_report_bytes(text, words + 4, is_there);
    return party;
}

/* ---- The same over the record as one struct ---------------------------------------------------------------------- */

static inline uint8_t *fixgw_comp_ids(struct fixgw_session *session)
{
    return (uint8_t *)session;              /* lengths and CompIDs are its first 24 bytes */
}

static inline uint32_t fixgw_session_new(struct fixgw_session *session, const uint8_t *our_id, size_t our_len,
                                         const uint8_t *peer_id, size_t peer_len)
{
    return fixgw_new(fixgw_comp_ids(session), session->words, FIXGW_WORDS, our_id, our_len, peer_id, peer_len);
}

static inline uint32_t fixgw_session_reconnect(struct fixgw_session *session)
{
    return fixgw_reconnect(fixgw_comp_ids(session), session->words, FIXGW_WORDS);
}

static inline uint32_t fixgw_session_step(struct fixgw_session *session, const uint8_t *frame, size_t frame_len,
                                          uint64_t time_us, uint8_t *buf, size_t buf_len, uint8_t *store,
                                          size_t store_len, uint64_t out[2])
{
    return fixgw_step(fixgw_comp_ids(session), session->words, FIXGW_WORDS, frame, frame_len, time_us, buf, buf_len,
                      store, store_len, out);
}

static inline uint32_t fixgw_session_replay(struct fixgw_session *session, uint64_t time_us, uint8_t *buf,
                                            size_t buf_len, const uint8_t *store, size_t store_len, uint64_t out[1])
{
    return fixgw_replay(fixgw_comp_ids(session), session->words, FIXGW_WORDS, time_us, buf, buf_len, store, store_len,
                        out);
}

static inline uint32_t fixgw_session_tick(struct fixgw_session *session, uint64_t time_us, uint8_t *buf,
                                          size_t buf_len, uint64_t out[1])
{
    return fixgw_tick(fixgw_comp_ids(session), session->words, FIXGW_WORDS, time_us, buf, buf_len, out);
}

static inline uint32_t fixgw_session_logout(struct fixgw_session *session, uint64_t time_us, uint8_t *buf,
                                            size_t buf_len, uint64_t out[1])
{
    return fixgw_logout(fixgw_comp_ids(session), session->words, FIXGW_WORDS, time_us, buf, buf_len, out);
}

static inline uint32_t fixgw_session_test_request(struct fixgw_session *session, const uint8_t *id, size_t id_len,
                                                  uint64_t time_us, uint8_t *buf, size_t buf_len, uint64_t out[1])
{
    return fixgw_test_request(fixgw_comp_ids(session), session->words, FIXGW_WORDS, id, id_len, time_us, buf, buf_len,
                              out);
}

static inline uint32_t fixgw_session_report(struct fixgw_session *session, const struct fixgw_report_draft *draft,
                                            uint64_t time_us, uint8_t *buf, size_t buf_len, uint8_t *store,
                                            size_t store_len, uint64_t out[1])
{
    return fixgw_report(fixgw_comp_ids(session), session->words, FIXGW_WORDS, draft->values, draft->text,
                        draft->text_len, time_us, buf, buf_len, store, store_len, out);
}

/* A MsgType as a number of fixgw_type; 0 for one that is not of one or two bytes, or begins with a byte 0. */
static inline uint32_t fixgw_type_number(const uint8_t *type, size_t len)
{
    if (len == 1)
        return type[0];
    return len == 2 && type[0] ? (uint32_t)type[0] << 8 | type[1] : 0;
}

#ifdef __cplusplus
}
#endif

#endif
