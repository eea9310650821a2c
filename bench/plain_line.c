/* A plain C11 line buffer, and the first field of a tag in a body. It shares nothing with the library. */
#include "plain_inside.h"

uint64_t plain_put(uint8_t *buf, size_t room, uint64_t held, const uint8_t *piece, size_t n)
{
    if (held >= room)
        return 0;
    size_t put = n < room - held ? n : room - held;
    memcpy(buf + held, piece, put);
    return put;
}

uint64_t plain_drop(uint8_t *buf, size_t room, uint64_t held, uint64_t n)
{
    if (held > room)
        held = room;
    if (n >= held)
        return 0;
    if (n > 0)
        memmove(buf, buf + n, held - n);
    return held - n;
}

#define MOST_TAG 99999

uint32_t plain_first_field(const uint8_t *body, size_t n, uint32_t tag, uint64_t out[3])
{
    uint8_t front[12];                      /* put_number takes nine digits */
    out[0] = out[1] = out[2] = 0;
    if (!is_body(body, n))
        return NOT_A_FRAME;
    if (tag == 0 || tag > MOST_TAG)
        return 0;
    uint8_t *to = put_number(front, tag);
    *to++ = '=';
    size_t size = (size_t)(to - front);
    const uint8_t *end = body + n, *bar;
    for (const uint8_t *p = body; p < end; p = bar + 1) {
        bar = memchr(p, BAR, (size_t)(end - p));
        if (*p != front[0] || (size_t)(bar - p) < size || memcmp(p, front, size) != 0)
            continue;
        out[0] = 1;
        out[1] = (uint64_t)(p + size - body);
        out[2] = (uint64_t)(bar - body);
        return 0;
    }
    return 0;
}
