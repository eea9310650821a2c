/* A message's fields as a host sees them, read through the gateway's own calls, and the FIX names of what they say. */
#ifndef HOST_MESSAGE_H
#define HOST_MESSAGE_H

#include "fixgw.h"
#include "libc.h"

struct message {
    const uint8_t *frame, *body;
    size_t len, body_len;
};

struct value {
    const uint8_t *at;                      /* NULL if there is no such field */
    size_t len;
};

/* The message of a frame; bytes that are no frame are one without fields. */
struct message message_of(const uint8_t *frame, size_t len);

/* The first field of a tag. */
struct value first_field(const struct message *message, uint32_t tag);

bool value_is(struct value value, const char *text);

/* A value of 1 to 12 digits, up to 999,999,999, as a number; 0 for any other. */
uint64_t number_in(struct value value);

/* The first field 35 as a number of fixgw_type. */
uint32_t type_of(const struct message *message);

/* In words; a type that the gateway does not know is "message". */
const char *type_name(uint32_t type);
const char *tag_name(uint64_t tag);
const char *reason_name(uint64_t reason);

#endif
