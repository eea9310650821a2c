/* The ledger of the example host: what came over the line, what the gateway decided and why, what went out. */
#ifndef HOST_LEDGER_H
#define HOST_LEDGER_H

#include "message.h"

/* One step as its host saw it. */
struct step {
    struct fixgw_session before, after;
    uint32_t refusal;
    bool delivered;
    struct message in;
    struct message reply[2];                /* no reply has more messages */
    size_t replies;
};

enum { CLOCK = 16 };                        /* HH:MM:SS.microseconds and its end */

/* The time of day. */
void clock_words(uint64_t time, char words[CLOCK]);

/* Puts the messages of a reply in the step. */
void take_reply(struct step *step, const uint8_t *reply, size_t len);

/* The rule of the documents that was applied, in words, deduced from what came, what went out and the record before and
   after: it explains an outcome and decides nothing. */
void explain(const struct step *step, char *words, size_t room);

/* What is known of the first `len` of the `held` bytes, which no frame begins in. */
void explain_noise(const uint8_t *bytes, size_t len, size_t held, char *words, size_t room);

/* The refusal of a call in words. */
const char *refusal_words(uint32_t refusal);

void ledger_head(uint64_t time);
void ledger_line(uint64_t time, const char *what);

/* The rows that follow are of this line, from 1 on. */
void ledger_of(unsigned line);

void ledger_connected(uint64_t time);

/* Who it is, with the record that it goes on with. */
void ledger_known(uint64_t time, const struct fixgw_session *session);

/* Bytes that came in `reads` reads since the last of these rows. Nothing for no read, or one that left nothing over. */
void ledger_came(uint64_t time, uint64_t reads, uint64_t bytes, uint64_t pending);

/* Bytes in front of a frame, or dropped, of all that are held: no part of any frame. Nothing for none. */
void ledger_noise(uint64_t time, const uint8_t *bytes, size_t len, size_t held);

/* Bytes that came behind the last frame and are not looked at. Nothing for none. */
void ledger_left(uint64_t time, uint64_t bytes);

void ledger_step(uint64_t time, const struct step *step);

/* A message with which the host turns a peer away, before any record is touched. */
void ledger_turned_away(uint64_t time, const struct message *message, const char *why);

/* A trade of which no report goes out now. */
void ledger_trade(uint64_t time, const char *id, const char *what);

/* A message that answers none: a Heartbeat, or one of the venue's own. */
void ledger_own(uint64_t time, const uint8_t *bytes, size_t len, const char *why);
void ledger_foot(void);

#endif
