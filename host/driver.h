/* What the driver's files share: the answer, a request's words, the lent buffer, the record and the store of a request. */
#ifndef HOST_DRIVER_H
#define HOST_DRIVER_H

#include "fixgw.h"
#include "libc.h"

enum {
    MOST_LENT = 1048576,                    /* the greatest BUFLEN */
    READ_AT_ONCE = 65536
};

#define GREATEST_NUMBER 18446744073709551615u
#define UNSET 0xa5a5a5a5a5a5a5a5u           /* what a call's answering words hold before it */

struct slice {
    const uint8_t *at;
    size_t len;
};

void fail(const char *why) __attribute__((noreturn));

/* ---- Bytes that grow, and the answer ----------------------------------------------------------------------------- */

struct text {
    uint8_t *at;
    size_t len, room;
};

void make_room(struct text *text, size_t more);
void append(struct text *text, const void *bytes, size_t len);

extern struct text answer;

void say(const char *words);
void say_number(uint64_t number);
void say_digits_of(const uint8_t *bytes, size_t len);
void say_hex(const uint8_t *bytes, size_t len);         /* `-` for none */
void say_refusal(uint32_t refusal);
void say_outcome(uint32_t refusal);                     /* `ok` for none */
void say_finding(const uint64_t out[3]);                /* {1, reason, tag} */

/* ---- The words of a request -------------------------------------------------------------------------------------- */

/* A line's words not yet taken. `at` is where the next begins, one behind `end` once all are taken; a space at the
   line's end so leaves an empty word, which no request reads. */
struct words {
    uint8_t *line;
    size_t at, end;
};

bool all_taken(const struct words *in);
bool take_word(struct words *in, uint8_t **word, size_t *len);
bool is_word(const uint8_t *word, size_t len, const char *name);
bool number_of(const uint8_t *word, size_t len, uint64_t most, uint64_t *number);
bool take_number(struct words *in, uint64_t most, uint64_t *number);
bool is_bytes(const uint8_t *word, size_t len);

/* Decodes a word of BYTES where it stands: a byte takes less room than its two digits. `-` becomes NULL. */
struct slice decoded(uint8_t *word, size_t len);

bool take_bytes(struct words *in, struct slice *bytes);

/* ---- The lent buffer --------------------------------------------------------------------------------------------- */

extern uint8_t lent[];

void lend(size_t room);

/* Whether the buffer is as it was lent but for the first `used` bytes; otherwise that is the answer. */
bool is_kept(size_t room, uint64_t used);

/* Whether these words of a call's answer are 0, as fixgw.h says; otherwise that is the answer. */
bool are_zero(const uint64_t *words, size_t count);

/* ---- The record of a request ------------------------------------------------------------------------------------- */

/* A record with the CompIDs as the request gave them: a session has room for the first 11 bytes alone. */
struct record {
    struct fixgw_session session;
    struct slice ours, peer;
};

bool take_record(struct words *in, struct record *record);

/* Whether a record is of this version with zeros behind the words that are used; otherwise that is the answer. */
bool is_of_this_version(const struct fixgw_session *session);

void say_record(const struct record *record);

/* The answer of a call on a record whose one out word is the reply's length, up to the record; false if it was not as
   fixgw.h says, and that is the answer. */
bool say_reply(uint32_t refusal, uint64_t room, const uint64_t out[1], const struct record *record);

/* ---- The store of a request -------------------------------------------------------------------------------------- */

/* What is lent: NULL for a length of 0. */
struct store {
    uint8_t *at;
    size_t len;
};

/* LENGTH,PLACE=BYTES,..: the places in any order, each at most once; all other bytes are zero. */
bool take_store(struct words *in, struct store *store);

/* Whether the store is as it was lent, and the bytes behind it are; of one that may change these alone. Otherwise that
   is the answer. */
bool is_store_kept(const struct store *store, bool may_change);

void say_store(const struct store *store);

/* ---- How each request is answered -------------------------------------------------------------------------------- */

/* False: the request cannot be read, and no call was made. */
bool answer_new(struct words *in);
bool answer_reconnect(struct words *in);
bool answer_step(struct words *in);
bool answer_tick(struct words *in);
bool answer_replay(struct words *in);
bool answer_report(struct words *in);
bool answer_report_values(struct words *in);

#endif
