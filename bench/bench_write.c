/* The writer on both sides: one message from its values. */
#include "bench.h"

#define LONGEST "ABCDEFGHIJKLMNOPQRSTUVWXYZ012345"
#define SIXTY_FOUR LONGEST LONGEST
#define LONGEST_TEXT SIXTY_FOUR SIXTY_FOUR SIXTY_FOUR SIXTY_FOUR

/* The values of one message, and the text that their bytes stand in, one behind the other. */
struct draft {
    uint8_t type;
    uint64_t values[FIXGW_VALUES];
    size_t text_len;
    uint8_t text[1024];
};

struct bytes heartbeat_out, logon_out, reject_out;
static ALIGNED struct draft heartbeat_draft, logon_draft, reject_draft;

static void give(struct draft *to, enum fixgw_place place, const char *text)
{
    size_t len = strlen(text);
    memcpy(to->text + to->text_len, text, len);
    fixgw_give_bytes(to->values, place, to->text_len, to->text_len + len);
    to->text_len += len;
}

static void give_number(struct draft *to, enum fixgw_place place, uint64_t number)
{
    fixgw_give_number(to->values, place, number);
}

static void begin(struct draft *to, uint8_t type)
{
    memset(to, 0, sizeof *to);
    to->type = type;
    give(to, FIXGW_PLACE_SENDER_COMP_ID, "GW");
    give(to, FIXGW_PLACE_TARGET_COMP_ID, "MM");
    give_number(to, FIXGW_PLACE_MSG_SEQ_NUM, 2);
    give(to, FIXGW_PLACE_SENDING_TIME, "20240102-09:30:00.000000");
}

static void give_optional_header(struct draft *to)
{
    give(to, FIXGW_PLACE_POSS_DUP_FLAG, "Y");
    give(to, FIXGW_PLACE_ORIG_SENDING_TIME, "20240102-09:30:00");
}

static void give_reject(struct draft *to)
{
    give_number(to, FIXGW_PLACE_REF_SEQ_NUM, 123456789);
    give_number(to, FIXGW_PLACE_REF_TAG_ID, 1409);
    give(to, FIXGW_PLACE_REF_MSG_TYPE, "AD");
    give_number(to, FIXGW_PLACE_SESSION_REJECT_REASON, 5);
    give(to, FIXGW_PLACE_TEXT, "Value is incorrect (out of range) for this tag");
}

static void give_logon(struct draft *to)
{
    give(to, FIXGW_PLACE_ENCRYPT_METHOD, "0");
    give_number(to, FIXGW_PLACE_HEART_BT_INT, 30);
    give(to, FIXGW_PLACE_DEFAULT_APPL_VER_ID, "9");
}

#define WRITTEN(type) "35=" type "|49=GW|56=MM|34=2|52=20240102-09:30:00.000000|"
#define WRITTEN_AGAIN(type) "35=" type "|49=GW|56=MM|34=2|43=Y|52=20240102-09:30:00.000000|122=20240102-09:30:00|"

void make_drafts(void)
{
    begin(&heartbeat_draft, '0');
    begin(&logon_draft, 'A');
    give_logon(&logon_draft);
    begin(&reject_draft, '3');
    give_optional_header(&reject_draft);
    give_reject(&reject_draft);
    make_frame(&heartbeat_out, WRITTEN("0"));
    make_frame(&logon_out, WRITTEN("A") "98=0|108=30|1137=9|");
    make_frame(&reject_out, WRITTEN_AGAIN("3") "45=123456789|371=1409|372=AD|373=5|"
               "58=Value is incorrect (out of range) for this tag|");
}

/* ---- What is measured -------------------------------------------------------------------------------------------- */

enum { WRITE_ROOM = 1024 };

static ALIGNED uint8_t our_buf[WRITE_ROOM], plain_buf[WRITE_ROOM];

static uint64_t write_ours(const struct draft *draft)
{
    uint64_t out[1];
    sink += fixgw_write(&draft->type, 1, draft->values, draft->text, draft->text_len, our_buf, sizeof our_buf, out);
    return out[0];
}

static uint64_t write_plain(const struct draft *draft)
{
    uint64_t out[1];
    sink += plain_write(&draft->type, 1, draft->values, draft->text, draft->text_len, plain_buf, sizeof plain_buf, out);
    return out[0];
}

/* The bytes are those that are written. */
static const struct draft *draft_of(const uint8_t *message)
{
    return message == heartbeat_out.at ? &heartbeat_draft : message == logon_out.at ? &logon_draft : &reject_draft;
}

void message_ours(const uint8_t *message, size_t len)
{
    sink += write_ours(draft_of(message)) + len;
}

void message_plain(const uint8_t *message, size_t len)
{
    sink += write_plain(draft_of(message)) + len;
}

/* ---- Both sides answer alike ------------------------------------------------------------------------------------- */

static size_t written, unfit, too_short;

/* Gives the length of the message. */
static uint64_t check_write(const uint8_t *type, size_t type_len, const struct draft *draft, size_t text_len, size_t room)
{
    uint64_t out[1], plain_out[1];
    for (size_t i = 0; i < WRITE_ROOM; i++)
        our_buf[i] = plain_buf[i] = (uint8_t)i;
    uint32_t refusal = fixgw_write(type, type_len, draft->values, draft->text, text_len, our_buf, room, out);
    uint32_t plain_refusal = plain_write(type, type_len, draft->values, draft->text, text_len, plain_buf, room, plain_out);
    insist(refusal == plain_refusal && out[0] == plain_out[0], "the writer");
    insist(memcmp(our_buf, plain_buf, WRITE_ROOM) == 0, "the writer's buffer");
    written += refusal == FIXGW_OK;
    unfit += refusal == FIXGW_REFUSED_VALUE;
    too_short += refusal == FIXGW_REFUSED_WRITE_ROOM;
    return out[0];
}

static void check_draft(const struct draft *draft)
{
    check_write(&draft->type, 1, draft, draft->text_len, WRITE_ROOM);
}

/* The message in every buffer up to its length, and with every cut of the text. */
static void check_rooms(const struct draft *draft)
{
    uint64_t len = check_write(&draft->type, 1, draft, draft->text_len, WRITE_ROOM);
    insist(len > 0, "a message of the writer");
    for (size_t room = 0; room <= len + 1; room++)
        check_write(&draft->type, 1, draft, draft->text_len, room);
    for (size_t text_len = 0; text_len < draft->text_len; text_len++)
        check_write(&draft->type, 1, draft, text_len, WRITE_ROOM);
}

/* One of its words changed: not given or given, numbers at their limits, places outside the text. */
static void check_words(const struct draft *draft)
{
    static const uint64_t others[] = {
        0, 1, 2, 9, 10, 11, 30, 60, 61, 99, 100, 999999999, 1000000000, 4294967295, 4294967297, 18446744073709551615u
    };
    for (size_t word = 0; word < FIXGW_VALUES; word++)
        for (size_t i = 0; i < sizeof others / sizeof others[0]; i++) {
            struct draft changed = *draft;
            changed.values[word] = others[i];
            check_draft(&changed);
        }
}

static const char *const texts[] = {
    "", "Y", "N", "X", "YY", "0", "9", "1", "09", "00", "A", "AD", "A=B", "\001", "A\001", "\001B", LONGEST, LONGEST "6",
    SIXTY_FOUR, SIXTY_FOUR "6", LONGEST_TEXT, LONGEST_TEXT "6", LONGEST "\001" LONGEST, "20240102-09:30:00",
    "20240102-09:30:00.123", "20240102-09:30:00.123456", "20240102-09:30:00.1234", "20240102-09:30:60", "20240102-09:30:61",
    "20240102-24:00:00", "20240102-09:60:00", "20240229-09:30:00", "20230229-09:30:00", "20241301-09:30:00",
    "00000101-00:00:00", "99991231-23:59:60.999999", "20240102 09:30:00", "2024010x-09:30:00", "20240102-09:30:00,123",
};

/* Each text in each place, alone and as one of those that are given. */
static void check_texts(const struct draft *draft)
{
    for (size_t place = 0; place < FIXGW_PLACES; place++)
        for (size_t i = 0; i < sizeof texts / sizeof texts[0]; i++) {
            struct draft changed = *draft;
            give(&changed, (enum fixgw_place)place, texts[i]);
            check_draft(&changed);
        }
}

/* A clean message of each type, with as much as it may have or as little as it must. */
static void fill(struct draft *to, uint8_t type, bool is_full)
{
    begin(to, type);
    if (is_full)
        give_optional_header(to);
    if (type == '1' || (type == '0' && is_full))
        give(to, FIXGW_PLACE_TEST_REQ_ID, SIXTY_FOUR);
    if (type == '2') {
        give_number(to, FIXGW_PLACE_BEGIN_SEQ_NO, 1);
        give_number(to, FIXGW_PLACE_END_SEQ_NO, 0);
    }
    if (type == '3' && is_full)
        give_reject(to);
    if (type == '3')
        give_number(to, FIXGW_PLACE_REF_SEQ_NUM, 999999999);
    if (type == '4')
        give_number(to, FIXGW_PLACE_NEW_SEQ_NO, 10);
    if (type == '4' && is_full)
        give(to, FIXGW_PLACE_GAP_FILL_FLAG, "Y");
    if (type == '5' && is_full) {
        give_number(to, FIXGW_PLACE_SESSION_STATUS, 101);
        give(to, FIXGW_PLACE_TEXT, LONGEST_TEXT);
    }
    if (type == 'A')
        give_logon(to);
    if (type == 'A' && is_full)
        give(to, FIXGW_PLACE_RESET_SEQ_NUM_FLAG, "N");
}

/* The type's bytes as they should not be, and each message's values under every other type. */
static void check_types(const struct draft *draft)
{
    static const uint8_t types[] = "0123456AEFZ a\001";
    check_write(NULL, 0, draft, draft->text_len, WRITE_ROOM);
    check_write((const uint8_t *)"AD", 2, draft, draft->text_len, WRITE_ROOM);
    check_write((const uint8_t *)"00", 2, draft, draft->text_len, 0);
    for (size_t i = 0; i < sizeof types; i++)
        check_write(types + i, 1, draft, draft->text_len, WRITE_ROOM);
}

static void check_measured(const struct draft *draft, const struct bytes *message)
{
    check_rooms(draft);
    insist(draft_of(message->at) == draft && write_ours(draft) == message->len, "the message that is measured");
    insist(memcmp(our_buf, message->at, message->len) == 0, "the message that is measured");
}

void check_writer(void)
{
    for (const char *type = "012345A"; *type; type++)
        for (int is_full = 0; is_full < 2; is_full++) {
            struct draft draft;
            fill(&draft, (uint8_t)*type, is_full);
            check_rooms(&draft);
            check_words(&draft);
            check_texts(&draft);
            check_types(&draft);
        }
    insist(written > 0 && unfit > 0 && too_short > 0, "the refusals of the writer");
    check_measured(&heartbeat_draft, &heartbeat_out);
    check_measured(&logon_draft, &logon_out);
    check_measured(&reject_draft, &reject_out);
}
