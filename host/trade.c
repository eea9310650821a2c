/* A trade capture report in words, by the names that the venue's specification has for its codes. */
#include "trade.h"

enum {
    DECIMAL_ROOM = 40,
    VALUE_ROOM = 4 * 32 + 1,                /* of a string that is shown */
    WORDS_ROOM = 2 * VALUE_ROOM + 2 * DECIMAL_ROOM + 40
};

struct name {
    const char *code, *name;
};

static const struct name trade_types[] = {
    { "0", "regular trade" }, { "54", "PC trade" }, { "99", "RFQ trade" }, { NULL, NULL },
};

static const struct name match_types[] = {
    { "2", "matched in a two-party report" }, { "4", "matched in continuous trading" },
    { "7", "matched in an auction" }, { "22", "matched by RFQ" }, { NULL, NULL },
};

static const struct name sides[] = { { "1", "buy" }, { "2", "sell" }, { NULL, NULL } };

static const struct name roles[] = {
    { "1", "executing firm" }, { "3", "client" }, { "12", "executing trader" }, { "17", "contra firm" },
    { "76", "trader group" }, { NULL, NULL },
};

static const char *name_in(const struct name *names, struct fixgw_bytes code)
{
    struct value value = { code.at, code.len };
    while (names->code && !value_is(value, names->code))
        names++;
    return names->code ? names->name : "a code without a name";
}

static struct fixgw_bytes value_of(const struct trade_report *report, uint32_t tag)
{
    return fixgw_report_value(report->values, report->body, tag);
}

/* A value with `\x..` for each byte that does not print. */
static const char *shown(struct fixgw_bytes value, char text[VALUE_ROOM])
{
    size_t used = 0;
    text[0] = 0;
    for (size_t i = 0; i < value.len && used + 5 <= VALUE_ROOM; i++) {
        bool is_plain = value.at[i] >= ' ' && value.at[i] <= '~';
        used += (size_t)snprintf(text + used, VALUE_ROOM - used, is_plain ? "%c" : "\\x%02x", value.at[i]);
    }
    return text;
}

/* A decimal as it is written: at least one digit before the point, and a point only if places follow. */
static void write_decimal(struct fixgw_decimal decimal, char text[DECIMAL_ROOM])
{
    char digits[DECIMAL_ROOM];
    int places = (int)decimal.places;
    int len = snprintf(digits, sizeof digits, "%0*lu", places + 1, (unsigned long)decimal.whole);
    snprintf(text, DECIMAL_ROOM, "%.*s%s%s", len - places, digits, places ? "." : "", digits + len - places);
}

void trade_words(const struct trade_report *report, char *words, size_t room)
{
    char id[VALUE_ROOM], security[VALUE_ROOM], quantity[DECIMAL_ROOM], price[DECIMAL_ROOM];
    write_decimal(fixgw_report_decimal(report->values, FIXGW_TAG_LAST_QTY), quantity);
    write_decimal(fixgw_report_decimal(report->values, FIXGW_TAG_LAST_PX), price);
    snprintf(words, room, "trade %s: %s %s of %s at %s", shown(value_of(report, FIXGW_TAG_TRADE_REPORT_ID), id),
             name_in(sides, value_of(report, FIXGW_TAG_SIDE)), quantity,
             shown(value_of(report, FIXGW_TAG_SECURITY_ID), security), price);
}

/* What it says, with the bytes behind; nothing if they are absent. */
static void print_value(const char *what, struct fixgw_bytes value)
{
    char text[VALUE_ROOM];
    if (value.at)
        printf("%s%s", what, shown(value, text));
}

void print_trade(const struct trade_report *report)
{
    char words[WORDS_ROOM];
    trade_words(report, words, sizeof words);
    printf("%s\n", words);
    print_value("  traded ", value_of(report, FIXGW_TAG_TRANSACT_TIME));
    print_value(", settles ", value_of(report, FIXGW_TAG_SETTL_DATE));
    printf("\n  %s, ", name_in(trade_types, value_of(report, FIXGW_TAG_TRD_TYPE)));
    printf("%s", name_in(match_types, value_of(report, FIXGW_TAG_MATCH_TYPE)));
    print_value(", execution ", value_of(report, FIXGW_TAG_SIDE_EXEC_ID));
    printf("\n");
    for (size_t i = 0; i < fixgw_report_parties(report->values); i++) {
        struct fixgw_party party = fixgw_report_party(report->values, report->body, i);
        print_value("  party ", party.id);
        printf(", %s\n", name_in(roles, party.role));
    }
}
