/* How the tests' C programs read their requests: lines of words, numbers in decimal, bytes in hex. */
#ifndef TESTS_LINES_H
#define TESTS_LINES_H

#include "../host/libc.h"

enum { LONGEST_LINE = 1 << 20 };

int getchar(void);

static char line[LONGEST_LINE];

static bool read_line(void)
{
    size_t len = 0;
    int c = getchar();
    while (c >= 0 && c != '\n' && len + 1 < sizeof line) {
        line[len++] = (char)c;
        c = getchar();
    }
    line[len] = 0;
    return c == '\n';
}

/* The next word of the line, which ends at a space or with the line. */
static char *next_word(char **at)
{
    char *word = *at;
    while (**at && **at != ' ')
        ++*at;
    if (**at)
        *(*at)++ = 0;
    return word;
}

static uint64_t number_of(const char *word)
{
    uint64_t number = 0;
    while (*word)
        number = 10 * number + (uint64_t)(*word++ - '0');
    return number;
}

static uint8_t digit(char c)
{
    return (uint8_t)(c <= '9' ? c - '0' : c - 'a' + 10);
}

/* Decodes hex where it stands, `-` for none, and gives the number of bytes. */
static size_t decode(char *word)
{
    size_t len = strcmp(word, "-") ? strlen(word) / 2 : 0;
    for (size_t i = 0; i < len; i++)
        word[i] = (char)(digit(word[2 * i]) << 4 | digit(word[2 * i + 1]));
    return len;
}

#endif
