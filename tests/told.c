/* What the ledger says of a step and of skipped bytes (host/why.c), one request a line, for tests/ledger:
     step TIME ROOM STORE FRAME RECORD   STORE the length of the store that is lent, FRAME in hex or -, RECORD its 216
                                         bytes in hex: the words for that step
     noise LEN BYTES                     the words for the first LEN of these bytes */
#include "../host/ledger.h"
#include "lines.h"

enum { MOST_ROOM = 4096 };

static void tell_step(char *at, char *words, size_t size)
{
    static uint8_t reply[MOST_ROOM], store[FIXGW_STORE];
    uint64_t out[2], time = number_of(next_word(&at)), room = number_of(next_word(&at));
    uint64_t stored = number_of(next_word(&at));
    char *frame = next_word(&at), *record = next_word(&at);
    size_t len = decode(frame);
    struct step step = { .refusal = 0 };
    decode(record);
    memcpy(&step.before, record, sizeof step.before);
    step.after = step.before;
    step.in = message_of((const uint8_t *)frame, len);
    memset(store, 1, sizeof store);
    step.refusal = fixgw_session_step(&step.after, (const uint8_t *)frame, len, time, reply,
                                      room < MOST_ROOM ? room : MOST_ROOM, store, stored, out);
    step.delivered = out[0];
    take_reply(&step, reply, out[1]);
    explain(&step, words, size);
}

static void tell_noise(char *at, char *words, size_t size)
{
    uint64_t len = number_of(next_word(&at));
    char *bytes = next_word(&at);
    size_t held = decode(bytes);
    explain_noise((const uint8_t *)bytes, len, held, words, size);
}

int main(void)
{
    while (read_line()) {
        char words[400], *at = line;
        if (strcmp(next_word(&at), "step") == 0)
            tell_step(at, words, sizeof words);
        else
            tell_noise(at, words, sizeof words);
        printf("%s\n", words);
        fflush(NULL);
    }
    return 0;
}
