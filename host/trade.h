/* A trade capture report in words. */
#ifndef HOST_TRADE_H
#define HOST_TRADE_H

#include "message.h"

/* The values of a report as fixgw_report_values read them, and the body that they lie in. */
struct trade_report {
    uint64_t values[FIXGW_REPORT_WORDS];
    const uint8_t *body;
};

/* Which trade it is, and what was traded: "trade T-1: buy 12.50 of 133215 at 101.25". What has no room is cut off. */
void trade_words(const struct trade_report *report, char *words, size_t room);

/* The same and all the rest, in lines. */
void print_trade(const struct trade_report *report);

#endif
