/* Prints the trade capture reports of a log in words: one line of standard input each, a report's frame with anything
   before it, or its body. `|` stands for the byte 1 in a line that has none. A line without a report gets the finding
   or the refusal instead; an empty one, or one that begins with #, is printed as it is. */
#include "trade.h"

enum { LINE_ROOM = 8192 };

static uint8_t line[LINE_ROOM];

/* The next line without its feed; false at the end. What has no room in it is left out. */
static bool read_line(size_t *len)
{
    uint8_t byte;
    bool any = false;
    *len = 0;
    while (read(0, &byte, 1) == 1) {
        any = true;
        if (byte == '\n')
            break;
        if (*len < LINE_ROOM)
            line[(*len)++] = byte;
    }
    return any;
}

static void restore_bars(size_t len)
{
    if (memchr(line, 1, len))
        return;
    for (size_t i = 0; i < len; i++)
        if (line[i] == '|')
            line[i] = 1;
}

/* The body of the first frame in the line; where there is no frame, the line itself. */
static struct value body_in(size_t len)
{
    struct value body = { line, len };
    uint64_t found[2], place[2];
    if (fixgw_read(line, len, found) == FIXGW_OK && fixgw_body(line + found[0], found[1], place) == FIXGW_OK) {
        body.at = line + found[0] + place[0];
        body.len = place[1];
    }
    return body;
}

static void print_finding(uint64_t reason, uint64_t tag)
{
    printf("no report: reason %lu (%s)", (unsigned long)reason, reason_name(reason));
    if (tag)
        printf(", tag %lu %s", (unsigned long)tag, tag_name(tag));
    printf("\n");
}

static void print_report(struct value body)
{
    struct trade_report report = { { 0 }, body.at };
    uint64_t out[3];
    if (fixgw_report_values(body.at, body.len, report.values, out))
        printf("no report: neither a frame nor a body\n");
    else if (out[0])
        print_finding(out[1], out[2]);
    else
        print_trade(&report);
}

int main(void)
{
    size_t len;
    while (read_line(&len)) {
        if (len == 0 || line[0] == '#') {
            printf("%.*s\n", (int)len, (const char *)line);
            continue;
        }
        restore_bars(len);
        print_report(body_in(len));
    }
    fflush(NULL);
    return 0;
}
