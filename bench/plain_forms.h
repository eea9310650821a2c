/* The forms of a report's values, which plain_report.c and plain_store.c share, inline in both. */
#ifndef PLAIN_FORMS_H
#define PLAIN_FORMS_H

#include "plain_inside.h"
#include "plain_values.h"

struct value {
    const uint8_t *at;
    size_t size;
};

static inline int is_text(struct value value)
{
    return value.size >= 1 && value.size <= 32 && !memchr(value.at, BAR, value.size);
}

static inline int is_one(struct value value, uint8_t byte)
{
    return value.size == 1 && value.at[0] == byte;
}

static inline int is_pair(struct value value, uint8_t first, uint8_t second)
{
    return value.size == 2 && value.at[0] == first && value.at[1] == second;
}

static inline int is_trade_type(struct value v)
{
    return is_one(v, '0') || is_pair(v, '5', '4') || is_pair(v, '9', '9');
}

static inline int is_match_type(struct value v)
{
    return is_one(v, '2') || is_one(v, '4') || is_one(v, '7') || is_pair(v, '2', '2');
}

static inline int is_role(struct value v)
{
    return is_one(v, '1') || is_one(v, '3') || is_pair(v, '1', '2') || is_pair(v, '1', '7') || is_pair(v, '7', '6');
}

static inline int is_time(struct value value)
{
    return check_time(value.at, value.size) == 0;
}

static inline int is_date(struct value value)
{
    return check_date(value.at, value.size) == 0;
}

#endif
