/* A plain C11 writer of document 01: one administrative message from its values, which are judged as their fields are put
   one behind the other. It shares nothing with the library. */
#include "plain_forms.h"

#define BODY_ROOM 512                       /* the longest body, a Reject's with all of its values, has 490 bytes */
#define MOST 999999999

enum kind { TEXT, NUMBER, FLAG, STAMP, LISTED };

/* The 21 tags in the order in which a message has them. */
enum slot {
    S49, S56, S34, S43, S52, S122, S112, S7, S16, S45, S371, S372, S373, S1409, S58, S123, S36, S98, S108, S1137, S141
};

struct entry {
    char label[8];                          /* with the `|` of the field before */
    uint8_t size, kind;
    uint32_t least, most;                   /* of a number; most also is a text's length, or the one byte that is listed */
};

#define ENTRY(tag, ...) { "\001" tag "=", sizeof tag + 1, __VA_ARGS__ }

static const struct entry ENTRIES[PLAIN_SLOTS] = {
    [S49] = ENTRY("49", TEXT, 0, 32), [S56] = ENTRY("56", TEXT, 0, 32), [S34] = ENTRY("34", NUMBER, 1, MOST),
    [S43] = ENTRY("43", FLAG, 0, 0), [S52] = ENTRY("52", STAMP, 0, 0), [S122] = ENTRY("122", STAMP, 0, 0),
    [S112] = ENTRY("112", TEXT, 0, 64), [S7] = ENTRY("7", NUMBER, 1, MOST), [S16] = ENTRY("16", NUMBER, 0, MOST),
    [S45] = ENTRY("45", NUMBER, 1, MOST), [S371] = ENTRY("371", NUMBER, 0, MOST), [S372] = ENTRY("372", TEXT, 0, 32),
    [S373] = ENTRY("373", NUMBER, 0, MOST), [S1409] = ENTRY("1409", NUMBER, 0, MOST), [S58] = ENTRY("58", TEXT, 0, 256),
    [S123] = ENTRY("123", FLAG, 0, 0), [S36] = ENTRY("36", NUMBER, 1, MOST), [S98] = ENTRY("98", LISTED, 0, '0'),
    [S108] = ENTRY("108", NUMBER, 1, 60), [S1137] = ENTRY("1137", LISTED, 0, '9'), [S141] = ENTRY("141", FLAG, 0, 0),
};

#define BIT(slot) (1u << (slot))
#define HEADER (BIT(S49) | BIT(S56) | BIT(S34) | BIT(S52))
#define OPTIONAL (BIT(S43) | BIT(S122))

struct message {
    uint32_t needed, own;
};

#define MESSAGE(needs, may) { HEADER | (needs), HEADER | OPTIONAL | (needs) | (may) }

static const struct message MESSAGES[] = {
    MESSAGE(0, BIT(S112)),
    MESSAGE(BIT(S112), 0),
    MESSAGE(BIT(S7) | BIT(S16), 0),
    MESSAGE(BIT(S45), BIT(S371) | BIT(S372) | BIT(S373) | BIT(S58)),
    MESSAGE(BIT(S36), BIT(S123)),
    MESSAGE(0, BIT(S1409) | BIT(S58)),
    MESSAGE(BIT(S98) | BIT(S108) | BIT(S1137), BIT(S141)),
};

static const struct message *message_of(const uint8_t *type, size_t size)
{
    if (size != 1)
        return 0;
    if (*type >= '0' && *type <= '5')
        return &MESSAGES[*type - '0'];
    return *type == 'A' ? &MESSAGES[6] : 0;
}

static uint32_t given_in(const uint64_t values[3 * PLAIN_SLOTS])
{
    uint32_t given = 0;
    for (size_t slot = PLAIN_SLOTS; slot-- > 0;)
        given = 2 * given + (values[3 * slot] != 0);
    return given;
}

static int is_fit(const struct entry *entry, struct value value)
{
    switch (entry->kind) {
    case FLAG: return is_one(value, 'Y') || is_one(value, 'N');
    case STAMP: return is_time(value);
    case LISTED: return is_one(value, (uint8_t)entry->most);
    default: return value.size >= 1 && value.size <= entry->most && !has_bar(value.at, value.size);
    }
}

/* The field of a value; nowhere if it is not fit. Of a label all eight bytes, which the value covers. */
static uint8_t *put_field(uint8_t *to, const struct entry *entry, const uint64_t value[3], const uint8_t *text,
                          size_t text_size)
{
    memcpy(to, entry->label, sizeof entry->label);
    to += entry->size;
    if (entry->kind == NUMBER)
        return value[1] < entry->least || value[1] > entry->most ? 0 : put_number(to, value[1]);
    if (value[1] > value[2] || value[2] > text_size)
        return 0;
    struct value bytes = { text + value[1], (size_t)(value[2] - value[1]) };
    return is_fit(entry, bytes) ? put(to, bytes.at, bytes.size) : 0;
}

uint32_t plain_write(const uint8_t *type, size_t type_size, const uint64_t values[3 * PLAIN_SLOTS], const uint8_t *text,
                     size_t text_size, uint8_t *buf, size_t room, uint64_t out[1])
{
    const struct message *message = message_of(type, type_size);
    uint32_t given = given_in(values);
    out[0] = 0;
    if (!message || (given & ~message->own) || (message->needed & ~given))
        return BAD_VALUES;
    uint8_t body[BODY_ROOM], *to = PUT(body, "35=");
    *to++ = *type;
    for (; given; given &= given - 1) {
        unsigned slot = (unsigned)__builtin_ctz(given);
        to = put_field(to, &ENTRIES[slot], values + 3 * slot, text, text_size);
        if (!to)
            return BAD_VALUES;
    }
    *to++ = BAR;
    size_t size = frame_size((size_t)(to - body));
    if (size > room)
        return SHORT_BUFFER;
    put_frame(buf, body, (size_t)(to - body));
    out[0] = size;
    return 0;
}
