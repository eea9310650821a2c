/* What the driver answers with and how it reads a request: text that grows, a line's words, the lent buffer. */
#include "driver.h"

enum { MARGIN = 64 };                       /* bytes behind the lent ones that are watched too */

void fail(const char *why)
{
    write(2, why, strlen(why));
    exit(1);
}

/* ---- Bytes that grow, and the answer ----------------------------------------------------------------------------- */

struct text answer;

void make_room(struct text *text, size_t more)
{
    size_t room = text->room ? text->room : READ_AT_ONCE;
    while (room - text->len < more)
        room *= 2;
    if (room == text->room)
        return;
    text->at = realloc(text->at, room);
    if (!text->at)
        fail("driver: out of memory\n");
    text->room = room;
}

void append(struct text *text, const void *bytes, size_t len)
{
    make_room(text, len);
    if (len > 0)
        memcpy(text->at + text->len, bytes, len);
    text->len += len;
}

void say(const char *words)
{
    append(&answer, words, strlen(words));
}

void say_number(uint64_t number)
{
    uint8_t digits[20];
    size_t at = sizeof digits;
    do {
        digits[--at] = (uint8_t)('0' + number % 10);
        number /= 10;
    } while (number > 0);
    append(&answer, digits + at, sizeof digits - at);
}

void say_digits_of(const uint8_t *bytes, size_t len)
{
    static const char digits[] = "0123456789abcdef";
    make_room(&answer, 2 * len);
    for (size_t i = 0; i < len; i++) {
        answer.at[answer.len++] = (uint8_t)digits[bytes[i] >> 4];
        answer.at[answer.len++] = (uint8_t)digits[bytes[i] & 15];
    }
}

void say_hex(const uint8_t *bytes, size_t len)
{
    if (len == 0)
        say("-");
    else
        say_digits_of(bytes, len);
}

void say_refusal(uint32_t refusal)
{
    say("refusal ");
    say_number(refusal);
}

void say_outcome(uint32_t refusal)
{
    if (refusal)
        say_refusal(refusal);
    else
        say("ok");
}

void say_finding(const uint64_t out[3])
{
    say("finding ");
    say_number(out[1]);
    say(" ");
    say_number(out[2]);
}

/* ---- The words of a request -------------------------------------------------------------------------------------- */

bool all_taken(const struct words *in)
{
    return in->at > in->end;
}

bool take_word(struct words *in, uint8_t **word, size_t *len)
{
    if (all_taken(in))
        return false;
    *word = in->line + in->at;
    uint8_t *space = memchr(*word, ' ', in->end - in->at);
    *len = space ? (size_t)(space - *word) : in->end - in->at;
    in->at += *len + 1;
    return true;
}

bool is_word(const uint8_t *word, size_t len, const char *name)
{
    return len == strlen(name) && memcmp(word, name, len) == 0;
}

bool number_of(const uint8_t *word, size_t len, uint64_t most, uint64_t *number)
{
    if (len == 0 || (word[0] == '0' && len > 1))
        return false;
    uint64_t value = 0;
    for (size_t i = 0; i < len; i++) {
        uint64_t digit = (uint64_t)word[i] - '0';
        if (digit > 9 || value > (GREATEST_NUMBER - digit) / 10)
            return false;
        value = 10 * value + digit;
    }
    *number = value;
    return value <= most;
}

bool take_number(struct words *in, uint64_t most, uint64_t *number)
{
    uint8_t *word;
    size_t len;
    return take_word(in, &word, &len) && number_of(word, len, most, number);
}

static uint8_t hex_digit(uint8_t byte)
{
    if (byte >= '0' && byte <= '9')
        return (uint8_t)(byte - '0');
    return byte >= 'a' && byte <= 'f' ? (uint8_t)(byte - 'a' + 10) : 16;
}

bool is_bytes(const uint8_t *word, size_t len)
{
    if (is_word(word, len, "-"))
        return true;
    for (size_t i = 0; i < len; i++)
        if (hex_digit(word[i]) > 15)
            return false;
    return len > 0 && len % 2 == 0;
}

struct slice decoded(uint8_t *word, size_t len)
{
    struct slice bytes = { NULL, 0 };
    if (is_word(word, len, "-"))
        return bytes;
    for (size_t i = 0; i < len / 2; i++)
        word[i] = (uint8_t)(hex_digit(word[2 * i]) << 4 | hex_digit(word[2 * i + 1]));
    bytes.at = word;
    bytes.len = len / 2;
    return bytes;
}

bool take_bytes(struct words *in, struct slice *bytes)
{
    uint8_t *word;
    size_t len;
    if (!take_word(in, &word, &len) || !is_bytes(word, len))
        return false;
    *bytes = decoded(word, len);
    return true;
}

/* ---- The lent buffer --------------------------------------------------------------------------------------------- */

uint8_t lent[MOST_LENT + MARGIN];

static uint8_t pattern(size_t place)
{
    return (uint8_t)(place * 151 + (place >> 8) * 59 + 7);
}

void lend(size_t room)
{
    for (size_t place = 0; place < room + MARGIN; place++)
        lent[place] = pattern(place);
}

bool is_kept(size_t room, uint64_t used)
{
    size_t place = used < room ? (size_t)used : room;
    while (place < room + MARGIN && lent[place] == pattern(place))
        place++;
    if (place == room + MARGIN && used <= room)
        return true;
    say("buffer changed at ");
    say_number(used <= room ? place : room);
    return false;
}

bool are_zero(const uint64_t *words, size_t count)
{
    for (size_t i = 0; i < count; i++)
        if (words[i] != 0) {
            say("word not zero");
            return false;
        }
    return true;
}
