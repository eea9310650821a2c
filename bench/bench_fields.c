/* The first field of a tag, on both sides, and the bodies whose fields grow in number. */
#include "bench.h"

struct bytes few_fields, some_fields, many_fields;

/* A Heartbeat with so many fields that no dictionary has, and 112 behind them. */
static void make_fields(struct bytes *frame, size_t count)
{
    static const char field[] = "20001=ab|";
    char body[2049] = HEADER("0");
    size_t at = strlen(body);
    for (; count > 0; count--, at += sizeof field - 1)
        memcpy(body + at, field, sizeof field);
    memcpy(body + at, "112=END|", sizeof "112=END|");
    make_frame(frame, body);
}

void make_bodies(void)
{
    make_fields(&few_fields, 2);
    make_fields(&some_fields, 20);
    make_fields(&many_fields, 200);
}

void first_field_ours(const uint8_t *body, size_t len)
{
    uint64_t out[3];
    sink += fixgw_first_field(body, len, FIXGW_TAG_TEST_REQ_ID, out) + out[1];
}

void first_field_plain(const uint8_t *body, size_t len)
{
    uint64_t out[3];
    sink += plain_first_field(body, len, FIXGW_TAG_TEST_REQ_ID, out) + out[1];
}

static size_t met, absent;

static void check_field(const uint8_t *body, size_t len, uint32_t tag)
{
    uint64_t out[3], plain_out[3];
    insist(fixgw_first_field(body, len, tag, out) == plain_first_field(body, len, tag, plain_out), "the first field");
    insist(memcmp(out, plain_out, sizeof out) == 0, "the first field");
    met += out[0];
    absent += !out[0];
}

/* Every tag that is or is nearly there, in a body, in each of its fronts, and in bytes that are none. */
void check_first_field(const char *text)
{
    static const uint32_t tags[] = {
        0, 1, 3, 4, 7, 8, 9, 10, 16, 34, 35, 36, 43, 45, 49, 52, 56, 58, 108, 112, 123, 141, 453, 448, 571, 1128, 1409, 2000,
        20001, 99999, 100000, 200010, 4294967295
    };
    static struct bytes frame;
    make_frame(&frame, text);
    for (size_t i = 0; i < sizeof tags / sizeof tags[0]; i++)
        for (size_t len = 0; len <= frame.body_len; len++)
            check_field(frame.at + frame.body, len, tags[i]);
}

void check_fields(void)
{
    static const char *const bodies[] = {
        "35=0|", "35=|112=|", "35=0|112=A|112=B|", "35=0|0112=A|112=B|", "35=0|112|112=B|", "35=0|=112=A|112=B|",
        "35=0|1120=A|12=B|112==|", "35=0|99999=A|100000=B|20001=C|", "35=0|x112=A|112x=B|112 =C|", "35=0||||112=D|",
        "35=35=0|35=1|", "36=0|112=A|", HEADER("0") "20001=ab|20001=ab|112=END|",
    };
    for (size_t i = 0; i < sizeof bodies / sizeof bodies[0]; i++)
        check_first_field(bodies[i]);
    insist(met > 0 && absent > 0, "first fields");
}
