/* A line in single bytes and in pieces, on both sides: put, read, dropped. */
#include "bench.h"

enum { LINE_ROOM = 4096, BAR = 1 };

/* Reads and drops until no frame is there; how many bytes are held then. */
static inline uint64_t settled(uint8_t *line, uint64_t held)
{
    uint64_t out[2];
    while (fixgw_read(line, held, out) == FIXGW_OK) {
        sink += out[1];
        held = fixgw_drop(line, LINE_ROOM, held, out[0] + out[1]);
    }
    return fixgw_drop(line, LINE_ROOM, held, out[0]);
}

static inline size_t dropped(uint8_t *line, size_t held, size_t n)
{
    if (n > 0)
        memmove(line, line + n, held - n);
    return held - n;
}

static inline size_t settled_plain(uint8_t *line, size_t held)
{
    size_t skip, found;
    while ((found = plain_read(line, held, &skip)) > 0) {
        sink += found;
        held = dropped(line, held, skip + found);
    }
    return dropped(line, held, skip);
}

/* A good frame ends with a byte 1: behind any other there is nothing to read for, unless the buffer is full. */
static inline bool may_end_a_frame(uint8_t byte, uint64_t held)
{
    return byte == BAR || held == LINE_ROOM;
}

/* ---- What is measured -------------------------------------------------------------------------------------------- */

static ALIGNED uint8_t our_line[LINE_ROOM], plain_line[LINE_ROOM];

void stream_ours(const uint8_t *bytes, size_t len)
{
    uint64_t held = 0;
    for (size_t i = 0; i < len; i++) {
        held += fixgw_put(our_line, LINE_ROOM, held, bytes + i, 1);
        held = settled(our_line, held);
    }
}

void stream_plain(const uint8_t *bytes, size_t len)
{
    size_t held = 0;
    for (size_t i = 0; i < len; i++) {
        plain_line[held++] = bytes[i];
        held = settled_plain(plain_line, held);
    }
}

void sparing_ours(const uint8_t *bytes, size_t len)
{
    uint64_t held = 0;
    for (size_t i = 0; i < len; i++) {
        held += fixgw_put(our_line, LINE_ROOM, held, bytes + i, 1);
        if (may_end_a_frame(bytes[i], held))
            held = settled(our_line, held);
    }
}

void sparing_plain(const uint8_t *bytes, size_t len)
{
    size_t held = 0;
    for (size_t i = 0; i < len; i++) {
        plain_line[held++] = bytes[i];
        if (may_end_a_frame(bytes[i], held))
            held = settled_plain(plain_line, held);
    }
}

/* A piece is put, the front half of it dropped, and then the rest. */
void piece_ours(const uint8_t *piece, size_t len)
{
    uint64_t held = fixgw_put(our_line, LINE_ROOM, 0, piece, len);
    held = fixgw_drop(our_line, LINE_ROOM, held, len / 2);
    sink += fixgw_drop(our_line, LINE_ROOM, held, held);
}

void piece_plain(const uint8_t *piece, size_t len)
{
    uint64_t held = plain_put(plain_line, LINE_ROOM, 0, piece, len);
    held = plain_drop(plain_line, LINE_ROOM, held, len / 2);
    sink += plain_drop(plain_line, LINE_ROOM, held, held);
}

/* ---- Both sides answer alike ------------------------------------------------------------------------------------- */

/* Bytes of frames that a side has read since. */
static uint64_t read_since(uint64_t *before)
{
    uint64_t read = sink - *before;
    *before = sink;
    return read;
}

static void check_put_drop(uint64_t room, uint64_t held, size_t len, uint64_t n)
{
    uint8_t ours[12], plain[12], piece[12];
    for (uint8_t i = 0; i < sizeof piece; i++) {
        ours[i] = plain[i] = (uint8_t)(100 + i);
        piece[i] = i;
    }
    insist(fixgw_put(ours, room, held, piece, len) == plain_put(plain, room, held, piece, len), "put");
    insist(memcmp(ours, plain, sizeof ours) == 0, "the bytes that were put");
    uint64_t rest = fixgw_drop(ours, room, held, n);
    insist(rest == plain_drop(plain, room, held, n) && memcmp(ours, plain, rest) == 0, "drop");
}

void check_pieces(void)
{
    static const uint64_t more[] = { 0, 1, 2, 3, 5, 7, 8, 9, 10, 11, 4294967296, 18446744073709551615u };
    for (size_t room = 0; room <= 10; room++)
        for (size_t i = 0; i < sizeof more / sizeof more[0]; i++)
            for (size_t len = 0; len <= 12; len++)
                for (size_t j = 0; j < sizeof more / sizeof more[0]; j++)
                    check_put_drop(room, more[i], len, more[j]);
}

/* The same bytes are held behind each byte, and the same frames were read. */
static void check_stream(const uint8_t *bytes, size_t len)
{
    uint64_t held = 0, before = sink;
    size_t plain_held = 0;
    for (size_t i = 0; i < len; i++) {
        held += fixgw_put(our_line, LINE_ROOM, held, bytes + i, 1);
        plain_held += plain_put(plain_line, LINE_ROOM, plain_held, bytes + i, 1);
        held = settled(our_line, held);
        uint64_t read = read_since(&before);
        plain_held = settled_plain(plain_line, plain_held);
        insist(read == read_since(&before) && held == plain_held && memcmp(our_line, plain_line, held) == 0, "a stream");
    }
}

/* Of a whole stream all ways read the same. */
void check_streams(const uint8_t *bytes, size_t len)
{
    run *const ways[] = { stream_ours, stream_plain, sparing_ours, sparing_plain };
    uint64_t reads[4], before = sink;
    for (size_t i = 0; i < 4; i++) {
        ways[i](bytes, len);
        reads[i] = read_since(&before);
        insist(reads[i] == reads[0], "a stream in single bytes");
    }
    check_stream(bytes, len);
}
