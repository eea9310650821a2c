/* A plain C11 frame reader and verdict of documents 01 and 02, written for speed: memchr for the scans, a sum that the
   compiler turns into vector code, one table of tags. It shares nothing with the library. */
#include "plain_values.h"

#define BAR 1

/* ---- The good frame ---------------------------------------------------------------------------------------------- */

#define MARK "8=FIXT.1.1\0019="
#define MARK_SIZE (sizeof MARK - 1)
#define MARK_RARE 4                 /* the place of the mark's X, which is scarce in numbers, dates and prices */
#define LEAST_BODY 5
#define GREATEST_BODY 2048
#define LENGTH_DIGITS 6             /* of the body length, zeros in front among them */
#define TRAILER_SIZE 7

enum state { DEAD, LIVE, GOOD };

/* What stands at one mark: its state, the frame's length if it is good, and from where on another mark may begin. */
struct look {
    enum state state;
    size_t length;
    size_t next;
};

/* The first mark that lies in s[from..n) whole, or n. No two marks overlap. */
static size_t scan_for_mark(const uint8_t *s, size_t from, size_t n)
{
    while (from + MARK_SIZE <= n) {
        const uint8_t *rare = memchr(s + from + MARK_RARE, MARK[MARK_RARE], n - from - (MARK_SIZE - 1));
        if (!rare)
            return n;
        size_t at = (size_t)(rare - s) - MARK_RARE;
        if (memcmp(s + at, MARK, MARK_SIZE) == 0)
            return at;
        from = at + 1;
    }
    return n;
}

/* The same where as a rule one stands at once. */
static size_t next_mark(const uint8_t *s, size_t from, size_t n)
{
    if (from + MARK_SIZE <= n && memcmp(s + from, MARK, MARK_SIZE) == 0)
        return from;
    return scan_for_mark(s, from, n);
}

/* The sum of a number of bytes that the compiler knows. Modulo 256 is what a byte holds. */
static inline uint8_t part_sum(const uint8_t *s, size_t n)
{
    uint8_t total = 0;
    for (size_t i = 0; i < n; i++)
        total = (uint8_t)(total + s[i]);
    return total;
}

#define ADD_PART(size) \
    if (n & (size)) { \
        total = (uint8_t)(total + part_sum(s, size)); \
        s += (size); \
    }

/* 256 bytes a turn, and then a part for each bit of the number of those left: the fastest of ten ways. */
static inline __attribute__((always_inline)) uint8_t sum_of(const uint8_t *s, size_t n)
{
    uint8_t total = 0;
    for (; n >= 256; s += 256, n -= 256)
        total = (uint8_t)(total + part_sum(s, 256));
    ADD_PART(128)
    ADD_PART(64)
    ADD_PART(32)
    ADD_PART(16)
    ADD_PART(8)
    ADD_PART(4)
    ADD_PART(2)
    return (uint8_t)(total + (n & 1 ? *s : 0));
}

uint8_t plain_sum(const uint8_t *s, size_t n)
{
    return sum_of(s, n);
}

/* The trailer against as much of it as is there. */
static enum state trailer(const uint8_t *s, size_t there, uint8_t total)
{
    uint8_t wanted[TRAILER_SIZE] = { '1', '0', '=', '0', '0', '0', BAR };
    wanted[3] = (uint8_t)(wanted[3] + total / 100);
    wanted[4] = (uint8_t)(wanted[4] + total / 10 % 10);
    wanted[5] = (uint8_t)(wanted[5] + total % 10);
    if (there >= TRAILER_SIZE)
        return memcmp(s, wanted, TRAILER_SIZE) == 0 ? GOOD : DEAD;
    return memcmp(s, wanted, there) == 0 ? LIVE : DEAD;
}

/* The body of `size` bytes at `body` and the trailer behind it, of the frame whose mark stands at p. */
static struct look look_at_body(const uint8_t *s, size_t n, size_t p, size_t body, size_t size)
{
    struct look look = { DEAD, 0, body };
    size_t there = n - body;
    if (there >= 3 ? memcmp(s + body, "35=", 3) != 0 : memcmp(s + body, "35=", there) != 0)
        return look;
    size_t limit = there < size ? n : body + size;
    look.next = scan_for_mark(s, body, limit);
    if (look.next < limit)
        return look;                                        /* a second mark, before anything is taken at its word */
    look.next = limit - body < MARK_SIZE ? body : limit - (MARK_SIZE - 1);
    if (there < size) {
        look.state = LIVE;
        return look;
    }
    if (s[limit - 1] != BAR)
        return look;
    look.state = trailer(s + limit, n - limit, sum_of(s + p, limit - p));
    look.length = limit + TRAILER_SIZE - p;
    return look;
}

/* How many digits stand in front, at most n; what they are worth. */
static inline size_t digits_in(const uint8_t *s, size_t n, size_t *worth)
{
    size_t count = 0;
    for (; count < n && is_digit(s[count]); count++)
        *worth = 10 * *worth + (size_t)(s[count] - '0');
    return count;
}

/* The frame whose mark stands at p. */
static struct look look_at(const uint8_t *s, size_t n, size_t p)
{
    size_t from = p + MARK_SIZE, size = 0, left = n - from;
    struct look look = { DEAD, 0, from };
    size_t digits = left < LENGTH_DIGITS ? digits_in(s + from, left, &size) : digits_in(s + from, LENGTH_DIGITS, &size);
    size_t at = from + digits;
    if (at == n) {
        if (size <= GREATEST_BODY && (digits < LENGTH_DIGITS || size >= LEAST_BODY))
            look.state = LIVE;                              /* a further digit can make it long enough */
        return look;
    }
    if (s[at] != BAR || size < LEAST_BODY || size > GREATEST_BODY)
        return look;
    return look_at_body(s, n, p, at + 1, size);
}

/* The smallest position from which the bytes run out inside a mark, or n. */
static size_t unfinished_mark(const uint8_t *s, size_t n)
{
    size_t at = n < MARK_SIZE ? 0 : n - (MARK_SIZE - 1);
    while (at < n && memcmp(s + at, MARK, n - at) != 0)
        at++;
    return at;
}

size_t plain_read(const uint8_t *s, size_t n, size_t *skip_or_drop)
{
    size_t p = next_mark(s, 0, n);
    while (p < n) {
        struct look look = look_at(s, n, p);
        if (look.state != DEAD) {                           /* behind a live mark there is no other mark */
            *skip_or_drop = p;
            return look.state == GOOD ? look.length : 0;
        }
        p = next_mark(s, look.next, n);
    }
    *skip_or_drop = unfinished_mark(s, n);
    return 0;
}

/* ---- The dictionary ---------------------------------------------------------------------------------------------- */

enum { T0 = 1, T1 = 2, T2 = 4, T3 = 8, T4 = 16, T5 = 32, TA = 64, TF = 128, TAD = 256, TAE = 512, ALL = 1023 };

#define APPLICATION (TF | TAD | TAE)

enum kind { STRING, LIST, NUMBER, YES_NO, TIME, DATE, DECIMAL };

/* Places in the table, in the order of document 01, then 02's; each is a bit of the marks. 0 is no place. */
enum place {
    NONE, P35, P49, P56, P34, P52, P43, P97, P122, P1128,
    P112, P7, P16, P45, P371, P372, P373, P58, P36, P123, P1409, P98, P108, P1137, P141,
    P11, P41, P54, P48, P22, P60, P453, P568, P569, P263, P828, P580, P1041,
    P448, P447, P452, P75, P571, P32, P31, P64, P574, P552, P1427, PLACES
};

#define HEADER_PLACES (P1128 + 1)           /* places below are the header's */
#define BIT(place) ((uint64_t)1 << (place))
#define C1(a) (a)                           /* a listed value of one or two bytes as a number */
#define C2(a, b) ((a) << 8 | (b))
#define MOST 999999999

struct entry {
    uint16_t messages;                      /* in which it may stand */
    uint8_t kind;
    uint32_t least, greatest;               /* of a number; greatest also is a string's length */
    uint16_t list[5];
    uint16_t in_report;                     /* what AE lists beside that, or 0 */
};

#define TEXT(messages, longest) { messages, STRING, 0, longest, { 0 }, 0 }
#define FROM(messages, least, greatest) { messages, NUMBER, least, greatest, { 0 }, 0 }
#define SHAPED(messages, kind) { messages, kind, 0, 0, { 0 }, 0 }
#define ONE_OF(messages, ...) { messages, LIST, 0, 0, { __VA_ARGS__ }, 0 }

static const struct entry ENTRIES[PLACES] = {
    [P35] = TEXT(ALL, 32), [P49] = TEXT(ALL, 32), [P56] = TEXT(ALL, 32), [P34] = FROM(ALL, 1, MOST),
    [P52] = SHAPED(ALL, TIME), [P43] = SHAPED(ALL, YES_NO), [P97] = SHAPED(ALL, YES_NO), [P122] = SHAPED(ALL, TIME),
    [P1128] = ONE_OF(ALL, C1('9')),
    [P112] = TEXT(T0 | T1, 64), [P7] = FROM(T2, 1, MOST), [P16] = FROM(T2, 0, MOST),
    [P45] = FROM(T3, 1, MOST), [P371] = FROM(T3, 0, MOST), [P372] = TEXT(T3, 32), [P373] = FROM(T3, 0, MOST),
    [P58] = TEXT(T3 | T5 | TAD, 256), [P36] = FROM(T4, 1, MOST), [P123] = SHAPED(T4, YES_NO),
    [P1409] = FROM(T5, 0, MOST),
    [P98] = ONE_OF(TA, C1('0')), [P108] = FROM(TA, 1, 60), [P1137] = ONE_OF(TA, C1('9')), [P141] = SHAPED(TA, YES_NO),
    [P11] = TEXT(TF, 32), [P41] = TEXT(TF, 32), [P54] = ONE_OF(TF | TAE, C1('1'), C1('2')),
    [P48] = TEXT(APPLICATION, 32),
    [P22] = ONE_OF(APPLICATION, C1('8')), [P60] = SHAPED(APPLICATION, TIME), [P453] = FROM(APPLICATION, 1, 8),
    [P568] = TEXT(TAD, 32), [P569] = ONE_OF(TAD, C1('0')), [P263] = ONE_OF(TAD, C1('0')),
    [P828] = { TAD | TAE, LIST, 0, 0, { C1('0'), C2('5', '4') }, C2('9', '9') },
    [P580] = FROM(TAD, 1, 2), [P1041] = TEXT(TAD, 32),
    [P448] = TEXT(APPLICATION, 32), [P447] = ONE_OF(APPLICATION, C1('D')),
    [P452] = ONE_OF(APPLICATION, C1('1'), C1('3'), C2('1', '2'), C2('1', '7'), C2('7', '6')),
    [P75] = SHAPED(TAD, DATE),
    [P571] = TEXT(TAE, 32), [P32] = SHAPED(TAE, DECIMAL), [P31] = SHAPED(TAE, DECIMAL), [P64] = SHAPED(TAE, DATE),
    [P574] = ONE_OF(TAE, C1('2'), C1('4'), C1('7'), C2('2', '2')), [P552] = FROM(TAE, 1, 1), [P1427] = TEXT(TAE, 32),
};

#define GREATEST_TAG 1427

static const uint8_t PLACE_OF[GREATEST_TAG + 1] = {
    [35] = P35, [49] = P49, [56] = P56, [34] = P34, [52] = P52, [43] = P43, [97] = P97, [122] = P122, [1128] = P1128,
    [112] = P112, [7] = P7, [16] = P16, [45] = P45, [371] = P371, [372] = P372, [373] = P373, [58] = P58, [36] = P36,
    [123] = P123, [1409] = P1409, [98] = P98, [108] = P108, [1137] = P1137, [141] = P141, [11] = P11, [41] = P41,
    [54] = P54, [48] = P48, [22] = P22, [60] = P60, [453] = P453, [568] = P568, [569] = P569, [263] = P263,
    [828] = P828, [580] = P580, [1041] = P1041, [448] = P448, [447] = P447, [452] = P452, [75] = P75, [571] = P571,
    [32] = P32, [31] = P31, [64] = P64, [574] = P574, [552] = P552, [1427] = P1427,
};

struct group {
    uint16_t count_tag;
    uint8_t first;                          /* its first member's place */
    uint64_t members, required;
    uint16_t order[4];                      /* the required tags in group order, up to a 0 */
};

#define PARTY_MEMBERS (BIT(P448) | BIT(P447) | BIT(P452))
#define DATE_MEMBERS (BIT(P75) | BIT(P60))
#define COUNTS (BIT(P453) | BIT(P580) | BIT(P552))
#define SIDE_MEMBERS (BIT(P54) | BIT(P1427) | BIT(P453))

static const struct group PARTIES = { 453, P448, PARTY_MEMBERS, PARTY_MEMBERS, { 448, 447, 452 } };
static const struct group DATES = { 580, P75, DATE_MEMBERS, BIT(P75), { 75 } };
static const struct group SIDES = { 552, P54, SIDE_MEMBERS, BIT(P54), { 54 } };

struct message {
    uint16_t bit;
    uint64_t required;
    uint64_t members;                       /* places that are a group's in it */
    uint16_t order[10];                     /* the required tags behind the header's, up to a 0 */
};

#define REQUIRED_HEADER (BIT(P35) | BIT(P49) | BIT(P56) | BIT(P34) | BIT(P52))

static const uint16_t HEADER_ORDER[] = { 35, 49, 56, 34, 52, 0 };

static const struct message MESSAGES[] = {
    { T0, REQUIRED_HEADER, 0, { 0 } },
    { T1, REQUIRED_HEADER | BIT(P112), 0, { 112 } },
    { T2, REQUIRED_HEADER | BIT(P7) | BIT(P16), 0, { 7, 16 } },
    { T3, REQUIRED_HEADER | BIT(P45), 0, { 45 } },
    { T4, REQUIRED_HEADER | BIT(P36), 0, { 36 } },
    { T5, REQUIRED_HEADER, 0, { 0 } },
    { TA, REQUIRED_HEADER | BIT(P98) | BIT(P108) | BIT(P1137), 0, { 98, 108, 1137 } },
    { TF, REQUIRED_HEADER | BIT(P11) | BIT(P41) | BIT(P54) | BIT(P48) | BIT(P22) | BIT(P60), PARTY_MEMBERS,
      { 11, 41, 54, 48, 22, 60 } },
    { TAD, REQUIRED_HEADER | BIT(P568) | BIT(P569) | BIT(P22) | BIT(P48) | BIT(P580), PARTY_MEMBERS | DATE_MEMBERS,
      { 568, 569, 22, 48, 580 } },
    { TAE, REQUIRED_HEADER | BIT(P571) | BIT(P828) | BIT(P60) | BIT(P32) | BIT(P31) | BIT(P574) | BIT(P48) | BIT(P22)
      | BIT(P552), PARTY_MEMBERS | SIDE_MEMBERS, { 571, 828, 60, 32, 31, 574, 48, 22, 552 } },
};

static const struct message *message_of(const uint8_t *type)
{
    if (type[0] == BAR)
        return 0;
    if (type[1] == BAR) {
        switch (type[0]) {
        case '0': case '1': case '2': case '3': case '4': case '5': return &MESSAGES[type[0] - '0'];
        case 'A': return &MESSAGES[6];
        case 'F': return &MESSAGES[7];
        default: return 0;
        }
    }
    if (type[0] != 'A' || type[2] != BAR)
        return 0;
    return type[1] == 'D' ? &MESSAGES[8] : type[1] == 'E' ? &MESSAGES[9] : 0;
}

/* ---- Values: 0, or the reason 6 or 5 ----------------------------------------------------------------------------- */

static uint32_t check_number(const struct entry *entry, const uint8_t *s, size_t n)
{
    uint64_t value = 0;
    if (n > NUMBER_DIGITS)
        return 6;
    for (size_t i = 0; i < n; i++) {                        /* few digits: not worth a vector */
        if (!is_digit(s[i]))
            return 6;
        value = 10 * value + (uint64_t)(s[i] - '0');
    }
    return value < entry->least || value > entry->greatest ? 5 : 0;
}

static uint32_t check_list(const struct entry *entry, uint16_t message, const uint8_t *s, size_t n)
{
    if (n > 2 || s[0] == 0)
        return 5;
    uint32_t value = n == 1 ? s[0] : C2((uint32_t)s[0], s[1]);
    for (size_t i = 0; i < 5; i++)
        if (entry->list[i] == value)
            return 0;
    return entry->in_report == value && message == TAE ? 0 : 5;
}

static uint32_t check_value(const struct entry *entry, uint16_t message, const uint8_t *s, size_t n)
{
    switch (entry->kind) {
    case NUMBER: return check_number(entry, s, n);
    case LIST: return check_list(entry, message, s, n);
    case YES_NO: return n == 1 && (s[0] == 'Y' || s[0] == 'N') ? 0 : 6;
    case TIME: return check_time(s, n);
    case DATE: return check_date(s, n);
    case DECIMAL: return check_decimal(s, n);
    default: return n > entry->greatest ? 5 : 0;
    }
}

/* ---- The verdict ------------------------------------------------------------------------------------------------- */

struct field {
    uint32_t tag;                           /* 0 for a part without `=` or with a malformed tag */
    const uint8_t *value, *end;
};

/* A group that is open, or none. */
struct open {
    const struct group *group;
    uint64_t instance;                      /* places met in its last instance */
    uint32_t count, instances;
};

struct walk {
    const struct message *message;
    uint64_t seen;                          /* marks of the places outside groups */
    uint64_t members;                       /* places that are a group's in this message */
    struct open in;                         /* the innermost group */
    struct open around[2];                  /* what it stands in, from outside */
    unsigned depth;
    int past_header;
};

static uint32_t finding(uint32_t reason, uint32_t tag)
{
    return 2 + reason + 256 * tag;
}

static uint32_t missing(const uint16_t *order, uint64_t seen)
{
    for (; *order; order++)
        if (!(seen & BIT(PLACE_OF[*order])))
            return finding(1, *order);
    return 0;
}

static uint32_t missing_member(const struct open *in)
{
    if (in->instances == 0 || !(in->group->required & ~in->instance))
        return 0;
    return missing(in->group->order, in->instance);
}

static uint32_t end_of_group(struct walk *walk)
{
    uint32_t found = missing_member(&walk->in);
    if (found)
        return found;
    if (walk->in.instances != walk->in.count)
        return finding(16, walk->in.group->count_tag);
    walk->in = walk->around[--walk->depth];
    return 0;
}

/* By the place and the last digit of a count, which has no more by its kind. */
static void open_group(struct walk *walk, unsigned place, uint8_t count)
{
    walk->around[walk->depth++] = walk->in;
    walk->in.group = place == P453 ? &PARTIES : place == P580 ? &DATES : &SIDES;
    walk->in.count = (uint32_t)(count - '0');
    walk->in.instances = 0;
    walk->in.instance = 0;
}

/* Step 1, for a field of this place; malformed and unknown ones have no place. One field may end several groups. */
static uint32_t step_1(struct walk *walk, unsigned place)
{
    while (walk->in.group) {
        if (walk->in.group->members & BIT(place))
            return place == walk->in.group->first ? missing_member(&walk->in) : 0;
        uint32_t found = end_of_group(walk);
        if (found)
            return found;
    }
    return 0;
}

/* Step 8, for a member of one of this message's groups. */
static uint32_t step_8(const struct open *in, unsigned place, uint32_t tag)
{
    if (!in->group || !(in->group->members & BIT(place)))
        return finding(15, tag);
    if (place == in->group->first)
        return 0;
    if (in->instances == 0)
        return finding(15, tag);
    return in->instance & BIT(place) ? finding(13, tag) : 0;
}

static inline void take_member(struct open *in, unsigned place)
{
    if (place == in->group->first) {
        in->instances++;
        in->instance = 0;
    }
    in->instance |= BIT(place);
}

static inline void take(struct walk *walk, unsigned place, struct field field)
{
    if (walk->members & BIT(place))
        take_member(&walk->in, place);
    else {
        walk->seen |= BIT(place);
        if (place >= HEADER_PLACES)
            walk->past_header = 1;
    }
    if (COUNTS & BIT(place))
        open_group(walk, place, field.end[-1]);
}

/* Steps 2 to 5 where the tag has no place: malformed, unknown, or one of 8, 9 and 10. */
static inline uint32_t without_place(const struct walk *walk, struct field field)
{
    uint32_t tag = field.tag;
    if (tag == 0)
        return finding(0, 0);
    if (tag >= 8 && tag <= 10)
        return finding(field.value == field.end ? 4 : 13, tag);
    return walk->message->bit & APPLICATION ? finding(3, tag) : 0;
}

static inline uint32_t at_field(struct walk *walk, struct field field)
{
    uint32_t tag = field.tag;
    unsigned place = tag <= GREATEST_TAG ? PLACE_OF[tag] : NONE;
    uint32_t found = step_1(walk, place);
    if (__builtin_expect(found != 0, 0))                    /* else the compiler takes all that follows to be rare */
        return found;
    if (place == NONE)
        return without_place(walk, field);
    if (field.value == field.end)
        return finding(4, tag);
    if (walk->seen & BIT(place))
        return finding(13, tag);
    if (!(ENTRIES[place].messages & walk->message->bit))
        return finding(2, tag);
    if (place < HEADER_PLACES && walk->past_header)
        return finding(14, tag);
    if (walk->members & BIT(place)) {
        found = step_8(&walk->in, place, tag);
        if (found)
            return found;
    }
    size_t size = (size_t)(field.end - field.value);
    uint32_t reason = check_value(&ENTRIES[place], walk->message->bit, field.value, size);
    if (reason)
        return finding(reason, tag);
    take(walk, place, field);
    return 0;
}

static uint32_t at_end(struct walk *walk)
{
    uint32_t found = 0;
    while (walk->in.group && !found)
        found = end_of_group(walk);
    if (found || !(walk->message->required & ~walk->seen))
        return found;
    found = missing(HEADER_ORDER, walk->seen);
    return found ? found : missing(walk->message->order, walk->seen);
}

/* The field at p; a body ends with `|`, so every loop ends inside it. */
static struct field next_field(const uint8_t *p, const uint8_t *end)
{
    struct field field = { 0, p, p };
    const uint8_t *at = p;
    uint32_t tag = 0;
    while (at < p + 5 && is_digit(*at))
        tag = 10 * tag + (uint32_t)(*at++ - '0');
    if (at > p && *p != '0' && *at == '=') {
        field.tag = tag;
        field.value = at + 1;
    }
    field.end = memchr(field.value, BAR, (size_t)(end - field.value));
    return field;
}

uint32_t plain_verdict(const uint8_t *body, size_t n)
{
    if (n < LEAST_BODY || n > GREATEST_BODY || memcmp(body, "35=", 3) != 0 || body[n - 1] != BAR)
        return 1;
    struct walk walk = { .message = message_of(body + 3) };
    if (!walk.message)
        return finding(11, 35);
    walk.members = walk.message->members;
    const uint8_t *end = body + n;
    for (const uint8_t *p = body; p < end;) {
        struct field field = next_field(p, end);
        uint32_t found = at_field(&walk, field);
        if (found)
            return found;
        p = field.end + 1;
    }
    return at_end(&walk);
}
