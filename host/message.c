/* A message's fields as a host sees them, and the FIX names of types, tags and reasons. */
#include "message.h"

#define GREATEST_NUMBER 999999999

struct message message_of(const uint8_t *frame, size_t len)
{
    uint64_t body[2];
    fixgw_body(frame, len, body);           /* {0, 0} for no frame */
    struct message message = { frame, frame + body[0], len, body[1] };
    return message;
}

struct value first_field(const struct message *message, uint32_t tag)
{
    uint64_t found[3];
    struct value value = { NULL, 0 };
    if (fixgw_first_field(message->body, message->body_len, tag, found) == FIXGW_OK && found[0]) {
        value.at = message->body + found[1];
        value.len = found[2] - found[1];
    }
    return value;
}

bool value_is(struct value value, const char *text)
{
    return value.at && value.len == strlen(text) && memcmp(value.at, text, value.len) == 0;
}

uint64_t number_in(struct value value)
{
    uint64_t number = 0;
    if (value.len == 0 || value.len > 12)
        return 0;
    for (size_t i = 0; i < value.len; i++) {
        if (value.at[i] < '0' || value.at[i] > '9')
            return 0;
        number = 10 * number + (uint64_t)(value.at[i] - '0');
    }
    return number <= GREATEST_NUMBER ? number : 0;
}

uint32_t type_of(const struct message *message)
{
    struct value type = first_field(message, FIXGW_TAG_MSG_TYPE);
    return fixgw_type_number(type.at, type.len);
}

const char *type_name(uint32_t type)
{
    switch (type) {
    case FIXGW_TYPE_HEARTBEAT: return "Heartbeat";
    case FIXGW_TYPE_TEST_REQUEST: return "Test Request";
    case FIXGW_TYPE_RESEND_REQUEST: return "Resend Request";
    case FIXGW_TYPE_REJECT: return "Reject";
    case FIXGW_TYPE_SEQUENCE_RESET: return "Sequence Reset";
    case FIXGW_TYPE_LOGOUT: return "Logout";
    case FIXGW_TYPE_LOGON: return "Logon";
    case FIXGW_TYPE_ORDER_CANCEL_REQUEST: return "Order Cancel Request";
    case FIXGW_TYPE_TRADE_CAPTURE_REPORT_REQUEST: return "Trade Capture Report Request";
    case FIXGW_TYPE_TRADE_CAPTURE_REPORT: return "Trade Capture Report";
    default: return "message";
    }
}

static const struct {
    uint64_t number;
    const char *name;
} tags[] = {
    { FIXGW_TAG_BEGIN_SEQ_NO, "BeginSeqNo" }, { FIXGW_TAG_BEGIN_STRING, "BeginString" },
    { FIXGW_TAG_BODY_LENGTH, "BodyLength" }, { FIXGW_TAG_CHECK_SUM, "CheckSum" }, { FIXGW_TAG_CL_ORD_ID, "ClOrdID" },
    { FIXGW_TAG_END_SEQ_NO, "EndSeqNo" }, { FIXGW_TAG_SECURITY_ID_SOURCE, "SecurityIDSource" },
    { FIXGW_TAG_LAST_PX, "LastPx" }, { FIXGW_TAG_LAST_QTY, "LastQty" },
    { FIXGW_TAG_MSG_SEQ_NUM, "MsgSeqNum" }, { FIXGW_TAG_MSG_TYPE, "MsgType" }, { FIXGW_TAG_NEW_SEQ_NO, "NewSeqNo" },
    { FIXGW_TAG_ORIG_CL_ORD_ID, "OrigClOrdID" }, { FIXGW_TAG_POSS_DUP_FLAG, "PossDupFlag" },
    { FIXGW_TAG_REF_SEQ_NUM, "RefSeqNum" }, { FIXGW_TAG_SECURITY_ID, "SecurityID" },
    { FIXGW_TAG_SENDER_COMP_ID, "SenderCompID" }, { FIXGW_TAG_SENDING_TIME, "SendingTime" }, { FIXGW_TAG_SIDE, "Side" },
    { FIXGW_TAG_TARGET_COMP_ID, "TargetCompID" }, { FIXGW_TAG_TEXT, "Text" },
    { FIXGW_TAG_TRANSACT_TIME, "TransactTime" }, { FIXGW_TAG_SETTL_DATE, "SettlDate" },
    { FIXGW_TAG_TRADE_DATE, "TradeDate" },
    { FIXGW_TAG_POSS_RESEND, "PossResend" }, { FIXGW_TAG_ENCRYPT_METHOD, "EncryptMethod" },
    { FIXGW_TAG_HEART_BT_INT, "HeartBtInt" }, { FIXGW_TAG_TEST_REQ_ID, "TestReqID" },
    { FIXGW_TAG_ORIG_SENDING_TIME, "OrigSendingTime" }, { FIXGW_TAG_GAP_FILL_FLAG, "GapFillFlag" },
    { FIXGW_TAG_RESET_SEQ_NUM_FLAG, "ResetSeqNumFlag" },
    { FIXGW_TAG_SUBSCRIPTION_REQUEST_TYPE, "SubscriptionRequestType" }, { FIXGW_TAG_REF_TAG_ID, "RefTagID" },
    { FIXGW_TAG_REF_MSG_TYPE, "RefMsgType" }, { FIXGW_TAG_SESSION_REJECT_REASON, "SessionRejectReason" },
    { FIXGW_TAG_PARTY_ID_SOURCE, "PartyIDSource" }, { FIXGW_TAG_PARTY_ID, "PartyID" },
    { FIXGW_TAG_PARTY_ROLE, "PartyRole" }, { FIXGW_TAG_NO_PARTY_IDS, "NoPartyIDs" },
    { FIXGW_TAG_NO_SIDES, "NoSides" }, { FIXGW_TAG_TRADE_REQUEST_ID, "TradeRequestID" },
    { FIXGW_TAG_TRADE_REQUEST_TYPE, "TradeRequestType" }, { FIXGW_TAG_TRADE_REPORT_ID, "TradeReportID" },
    { FIXGW_TAG_MATCH_TYPE, "MatchType" },
    { FIXGW_TAG_NO_DATES, "NoDates" }, { FIXGW_TAG_TRD_TYPE, "TrdType" }, { FIXGW_TAG_FIRM_TRADE_ID, "FirmTradeID" },
    { FIXGW_TAG_APPL_VER_ID, "ApplVerID" }, { FIXGW_TAG_DEFAULT_APPL_VER_ID, "DefaultApplVerID" },
    { FIXGW_TAG_SESSION_STATUS, "SessionStatus" }, { FIXGW_TAG_SIDE_EXEC_ID, "SideExecID" },
};

const char *tag_name(uint64_t tag)
{
    for (size_t i = 0; i < sizeof tags / sizeof tags[0]; i++)
        if (tags[i].number == tag)
            return tags[i].name;
    return "no tag of the dictionary";
}

const char *reason_name(uint64_t reason)
{
    switch (reason) {
    case FIXGW_REASON_INVALID_TAG: return "invalid tag number";
    case FIXGW_REASON_REQUIRED_TAG_MISSING: return "required tag missing";
    case FIXGW_REASON_NOT_FOR_THIS_MESSAGE: return "tag not for this message";
    case FIXGW_REASON_UNDEFINED_TAG: return "undefined tag";
    case FIXGW_REASON_NO_VALUE: return "tag without a value";
    case FIXGW_REASON_VALUE_INCORRECT: return "value is incorrect";
    case FIXGW_REASON_DATA_FORMAT: return "incorrect data format";
    case FIXGW_REASON_COMP_ID: return "CompID problem";
    case FIXGW_REASON_SENDING_TIME_ACCURACY: return "SendingTime accuracy problem";
    case FIXGW_REASON_INVALID_MSG_TYPE: return "invalid MsgType";
    case FIXGW_REASON_TAG_TWICE: return "tag appears more than once";
    case FIXGW_REASON_TAG_ORDER: return "tag out of required order";
    case FIXGW_REASON_GROUP_ORDER: return "repeating group fields out of order";
    case FIXGW_REASON_GROUP_COUNT: return "incorrect NumInGroup count";
    case FIXGW_REASON_OTHER: return "other";
    default: return "reason";
    }
}
