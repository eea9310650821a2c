/* Forms of values that the plain side's files share, inline in each: 0, or the reason 6 or 5. */
#ifndef PLAIN_VALUES_H
#define PLAIN_VALUES_H

#include "plain.h"

static inline int is_digit(uint8_t byte)
{
    return (uint8_t)(byte - '0') <= 9;
}

static inline int all_digits(const uint8_t *s, size_t n)
{
    unsigned bad = 0;
    for (size_t i = 0; i < n; i++)
        bad |= !is_digit(s[i]);
    return !bad;
}

static inline uint32_t number(const uint8_t *s, size_t n)
{
    uint32_t value = 0;
    for (size_t i = 0; i < n; i++)
        value = 10 * value + (uint32_t)(s[i] - '0');
    return value;
}

/* Eight bytes as they lie. */
static inline uint64_t word(const void *s)
{
    uint64_t word;
    memcpy(&word, s, sizeof word);
    return word;
}

/* Whether eight bytes have a form: a digit where the form has a 0, and its own byte elsewhere. Of a digit
   and '0' the bits apart are a number up to 9, of another byte a greater one: past 15, or past 15 with 6 put to it. */
static inline int is_formed(const uint8_t *s, const char form[8])
{
    uint64_t digits = 0, apart = word(s) ^ word(form);
    for (size_t i = 0; i < 8; i++)
        ((uint8_t *)&digits)[i] = form[i] == '0';
    return !((apart & ~(15 * digits)) | ((apart + 6 * digits) & (16 * digits)));
}

static inline uint32_t calendar(const uint8_t *s)
{
    static const uint8_t days[13] = { 0, 31, 29, 31, 30, 31, 30, 31, 31, 30, 31, 30, 31 };
    uint32_t year = number(s, 4), month = number(s + 4, 2), day = number(s + 6, 2);
    if (year == 0 || month == 0 || month > 12 || day == 0 || day > days[month])
        return 5;
    if (month != 2 || day != 29)
        return 0;
    return year % 4 == 0 && (year % 100 != 0 || year % 400 == 0) ? 0 : 5;
}

static inline uint32_t check_date(const uint8_t *s, size_t n)
{
    return n != 8 || !is_formed(s, "00000000") ? 6 : calendar(s);
}

static inline uint32_t check_time(const uint8_t *s, size_t n)
{
    if (n != 17 && n != 21 && n != 24)
        return 6;
    if (!is_formed(s, "00000000") || s[8] != '-' || !is_formed(s + 9, "00:00:00"))
        return 6;
    if ((n == 21 && !is_formed(s + 13, "0:00.000")) || (n == 24 && !is_formed(s + 16, "0.000000")))
        return 6;
    if (number(s + 9, 2) > 23 || number(s + 12, 2) > 59 || number(s + 15, 2) > 60)
        return 5;
    return calendar(s);
}

#define DECIMAL_DIGITS 15                   /* of the whole number, the point left out */
#define DECIMAL_PLACES 8

/* Digits without leading zero but a lone 0, then a point only if digits follow. */
static inline uint32_t check_decimal(const uint8_t *s, size_t n)
{
    size_t front = 0, places = 0;
    while (front < n && is_digit(s[front]))
        front++;
    if (front == 0 || (s[0] == '0' && front > 1))
        return 6;
    if (front < n) {
        places = n - front - 1;
        if (s[front] != '.' || places == 0 || !all_digits(s + front + 1, places))
            return 6;
    }
    return places > DECIMAL_PLACES || front + places > DECIMAL_DIGITS ? 5 : 0;
}

#endif
