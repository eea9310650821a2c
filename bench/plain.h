/* A plain C11 frame reader, verdict and session of documents 01 and 02, the measure that the library's speed is held to.
   The few declarations stand here because the compiler may come without the C library's headers. */
#ifndef PLAIN_H
#define PLAIN_H

typedef __SIZE_TYPE__ size_t;
typedef __UINT8_TYPE__ uint8_t;
typedef __UINT16_TYPE__ uint16_t;
typedef __UINT32_TYPE__ uint32_t;
typedef __UINT64_TYPE__ uint64_t;

#define NUMBER_DIGITS 12                    /* of a number that is read, zeros in front among them */
#define GREATEST_NUMBER 999999999

void *memchr(const void *, int, size_t);
int memcmp(const void *, const void *, size_t);
void *memcpy(void *, const void *, size_t);
void *memmove(void *, const void *, size_t);
void *memset(void *, int, size_t);

/* One reading of s[0..n): the length of the leftmost good frame, with the number of bytes skipped before it; or 0,
   which is refusal 1, with the number of bytes to drop. */
size_t plain_read(const uint8_t *s, size_t n, size_t *skip_or_drop);

/* How many bytes of a piece are put behind the first `held` of a line buffer; how many are held once n of them are dropped
   from its front. */
uint64_t plain_put(uint8_t *buf, size_t room, uint64_t held, const uint8_t *piece, size_t n);
uint64_t plain_drop(uint8_t *buf, size_t room, uint64_t held, uint64_t n);

/* The first field of a tag in a body: 0 or refusal 10; out is {1, start, end} of its value, or {0, 0, 0}. */
uint32_t plain_first_field(const uint8_t *body, size_t n, uint32_t tag, uint64_t out[3]);

/* The verdict on one body: 0 clean, 1 no body (refusal 10), else 2 + reason + 256 * tag. */
uint32_t plain_verdict(const uint8_t *body, size_t n);

/* The sum of bytes modulo 256. */
uint8_t plain_sum(const uint8_t *s, size_t n);

enum { PLAIN_COMP_ID = 11, PLAIN_RECORD = 13 * 8 + 2 * PLAIN_COMP_ID };    /* bytes, without padding */

/* A session's record. The numbers are as wide as the library's, so that every one of its records can be put here. */
struct plain_session {
    uint64_t ours_size, peer_size;
    uint64_t status;                        /* 0 Waiting, 1 Active, 2 Closed */
    uint64_t expected, next_out, heartbeat, last_sent;
    uint64_t at, to;                        /* of a replay */
    uint64_t is_open, open_for, highest, asked;     /* of a gap */
    uint8_t ours[PLAIN_COMP_ID], peer[PLAIN_COMP_ID];
};

enum { PLAIN_PLACES = 64, PLAIN_PLACE = 512, PLAIN_STORE = PLAIN_PLACES * PLAIN_PLACE };

/* A step and a tick: 0 or a refusal; out is {delivered, reply length} and {reply length}. */
uint32_t plain_step(struct plain_session *session, const uint8_t *frame, size_t len, uint64_t time, uint8_t *buf,
                    size_t room, uint8_t *store, size_t store_size, uint64_t out[2]);
uint32_t plain_tick(struct plain_session *session, uint64_t time, uint8_t *buf, size_t room, uint64_t out[1]);

/* The venue's Logout, and its Test Request with this 112: 0 or a refusal; out is {message length}. */
uint32_t plain_logout(struct plain_session *session, uint64_t time, uint8_t *buf, size_t room, uint64_t out[1]);
uint32_t plain_test_request(struct plain_session *session, const uint8_t *id, size_t id_size, uint64_t time, uint8_t *buf,
                            size_t room, uint64_t out[1]);

enum { PLAIN_PARTIES = 8, PLAIN_WORDS = 82 };

/* A report: 0 or a refusal; out is {report length}. The values lie as the library's: eleven of three words {given, a,
   b}, the number of parties, and six words for each of eight parties, places in the text. */
uint32_t plain_report(struct plain_session *session, const uint64_t values[PLAIN_WORDS], const uint8_t *text,
                      size_t text_size, uint64_t time, uint8_t *buf, size_t room, uint8_t *store, size_t store_size,
                      uint64_t out[1]);

/* A replay call: 0 or a refusal; out is {message length}. */
uint32_t plain_replay(struct plain_session *session, uint64_t time, uint8_t *buf, size_t room, const uint8_t *store,
                      size_t store_size, uint64_t out[1]);

/* Keeps a report that goes out: in the first empty place, else in the lowest number's. */
void plain_keep(const struct plain_session *session, uint8_t *store, const uint8_t *report, size_t size);

/* The values of a report's body: 0 or refusal 10; out is {0, 0, 0} or {1, reason, tag}. */
uint32_t plain_report_values(const uint8_t *body, size_t n, uint64_t values[PLAIN_WORDS], uint64_t out[3]);

enum { PLAIN_SLOTS = 21 };

/* Writes one of the seven administrative messages: 0 or a refusal; out is {message length}. The values lie as the library's:
   three words {given, a, b} for each of 21 tags, numbers in a, others from a to b in the text. */
uint32_t plain_write(const uint8_t *type, size_t type_size, const uint64_t values[3 * PLAIN_SLOTS], const uint8_t *text,
                     size_t text_size, uint8_t *buf, size_t room, uint64_t out[1]);

#endif
