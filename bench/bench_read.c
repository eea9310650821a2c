/* Readings of all kinds, on both sides: frames with single bytes changed, cut and one behind the other; and the sum by itself. */
#include "bench.h"

static size_t good, pending, dropped;

static void check_reading(const uint8_t *bytes, size_t len)
{
    uint64_t out[2];
    size_t skip, found = plain_read(bytes, len, &skip);
    uint32_t refusal = fixgw_read(bytes, len, out);
    insist(refusal == (found > 0 ? FIXGW_OK : FIXGW_REFUSED_NO_FRAME_YET), "a reading");
    insist(out[0] == skip && out[1] == found, "a reading");
    good += found > 0;
    pending += found == 0 && skip < len;
    dropped += found == 0 && skip == len;
}

/* All of a frame but its trailer. */
void sum_ours(const uint8_t *bytes, size_t len)
{
    sink += measured_sum(bytes, len - 7);
}

void sum_plain(const uint8_t *bytes, size_t len)
{
    sink += plain_sum(bytes, len - 7);
}

/* Every number of bytes up to what a frame has and more, of these and of the greatest byte. */
void check_sums(const uint8_t *bytes)
{
    static uint8_t greatest_bytes[2400];
    uint64_t sum = 0;
    memset(greatest_bytes, 255, sizeof greatest_bytes);
    for (size_t len = 0; len <= sizeof greatest_bytes; sum += bytes[len++]) {
        insist(measured_sum(bytes, len) == sum % 256 && plain_sum(bytes, len) == sum % 256, "a sum");
        insist(measured_sum(greatest_bytes, len) == 255 * len % 256, "a sum of the greatest bytes");
    }
}

void mend_sum(uint8_t *frame, size_t len)
{
    uint8_t sum = plain_sum(frame, len - 7);
    frame[len - 4] = (uint8_t)('0' + sum / 100);
    frame[len - 3] = (uint8_t)('0' + sum / 10 % 10);
    frame[len - 2] = (uint8_t)('0' + sum % 10);
}

/* One byte changed in many ways, every front of it; then its sum mended, alone and with the frame as it was behind it. */
static void check_changed(const struct bytes *frame)
{
    static const uint8_t others[] = { 0, 1, '0', '1', '3', '5', '8', '9', '=', 'X', 'F', 255 };
    static uint8_t bytes[1024];
    for (size_t i = 0; i < frame->len; i++)
        for (size_t j = 0; j < sizeof others; j++) {
            memcpy(bytes, frame->at, frame->len);
            memcpy(bytes + frame->len, frame->at, frame->len);
            bytes[i] = others[j];
            for (size_t len = 0; len <= frame->len + 1; len++)
                check_reading(bytes, len);
            mend_sum(bytes, frame->len);
            check_reading(bytes, frame->len);
            check_reading(bytes, 2 * frame->len);
        }
}

/* Fronts of a frame, each with a whole frame behind it, and each begun in its midst. */
static void check_cuts(const struct bytes *frame)
{
    static uint8_t bytes[8192];
    for (size_t front = 0; front <= frame->len; front++) {
        memcpy(bytes, frame->at, front);
        memcpy(bytes + front, frame->at, frame->len);
        check_reading(bytes, front);
        check_reading(bytes, front + frame->len);
        check_reading(bytes + front / 2, front - front / 2 + frame->len);
    }
}

/* A length as it stands behind 9=, with a body of so many bytes that ends the frame or is torn by a mark. */
static void check_length(const char *digits, size_t body_len)
{
    static struct bytes frame;
    static char body[4096];
    make_frame(&frame, "35=0|");
    size_t len = 13;
    for (; *digits; digits++)
        frame.at[len++] = (uint8_t)*digits;
    frame.at[len++] = 1;
    memset(body, 'x', body_len);
    memcpy(body, "35=", body_len < 3 ? body_len : 3);
    memcpy(frame.at + len, body, body_len);
    len += body_len;
    frame.at[len - 1] = 1;
    memcpy(frame.at + len, "10=000\001", 7);
    len += 7;
    mend_sum(frame.at, len);
    check_reading(frame.at, len);
    for (size_t cut = 1; cut < 30 && cut < len; cut++)
        check_reading(frame.at, len - cut);
    memcpy(frame.at + len - 12, frame.at, 13);
    check_reading(frame.at, len + 1);
}

void check_readings(const struct bytes *longest)
{
    static struct bytes frame;
    static const struct {
        const char *digits;
        size_t len;
    } lengths[] = {
        { "", 5 }, { "0", 5 }, { "4", 4 }, { "5", 5 }, { "05", 5 }, { "6", 5 }, { "9", 9 }, { "10", 10 }, { "12", 12 },
        { "13", 13 }, { "14", 14 }, { "99", 99 }, { "100", 100 }, { "0100", 100 }, { "999", 999 }, { "1000", 1000 },
        { "2047", 2047 }, { "2048", 2048 }, { "2049", 2049 }, { "20480", 2048 }, { "2048x", 2048 }, { "x", 5 },
        { "00000", 5 }, { "000000", 5 }, { "000004", 4 }, { "000005", 5 }, { "0000005", 5 }, { "002048", 2048 },
        { "002049", 2049 }, { "0002048", 2048 },
    };
    make_frame(&frame, HEADER("0"));
    check_changed(&frame);
    check_cuts(&frame);
    check_cuts(longest);
    for (size_t i = 0; i < sizeof lengths / sizeof lengths[0]; i++)
        check_length(lengths[i].digits, lengths[i].len);
    insist(good > 0 && pending > 0 && dropped > 0, "readings");
}
