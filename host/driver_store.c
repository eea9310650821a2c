/* The store of a driver's request: read from its word, lent, watched, and told. */
#include "driver.h"

enum { MARGIN = 64, GUARD = 0x5a };         /* bytes behind the lent ones that are watched too, and what they hold */

static uint8_t bytes[MOST_LENT + MARGIN], before[MOST_LENT + MARGIN];

/* One PLACE=BYTES. */
static bool take_place(uint8_t *word, size_t len, struct store *store, bool *is_given)
{
    uint64_t place;
    uint8_t *equals = memchr(word, '=', len);
    if (!equals)
        return false;
    size_t front = (size_t)(equals - word) + 1;
    if (!number_of(word, front - 1, MOST_LENT / FIXGW_STORE_PLACE, &place) || is_given[place]
        || !is_bytes(word + front, len - front))
        return false;
    struct slice given = decoded(word + front, len - front);
    size_t at = (size_t)place * FIXGW_STORE_PLACE;
    if (at >= store->len || given.len > FIXGW_STORE_PLACE || given.len > store->len - at)
        return false;
    if (given.len > 0)
        memcpy(bytes + at, given.at, given.len);
    is_given[place] = true;
    return true;
}

bool take_store(struct words *in, struct store *store)
{
    bool is_given[MOST_LENT / FIXGW_STORE_PLACE + 1] = { false };
    uint64_t len;
    uint8_t *at, *end;
    size_t size;
    if (!take_word(in, &at, &size))
        return false;
    end = at + size;
    uint8_t *comma = memchr(at, ',', size);
    if (!number_of(at, (size_t)((comma ? comma : end) - at), MOST_LENT, &len))
        return false;
    store->len = (size_t)len;
    store->at = len > 0 ? bytes : NULL;
    memset(bytes, 0, store->len);
    memset(bytes + store->len, GUARD, MARGIN);
    while (comma) {
        at = comma + 1;
        comma = memchr(at, ',', (size_t)(end - at));
        if (!take_place(at, (size_t)((comma ? comma : end) - at), store, is_given))
            return false;
    }
    memcpy(before, bytes, store->len + MARGIN);
    return true;
}

bool is_store_kept(const struct store *store, bool may_change)
{
    size_t place = may_change ? store->len : 0;
    while (place < store->len + MARGIN && bytes[place] == before[place])
        place++;
    if (place == store->len + MARGIN)
        return true;
    say("store changed at ");
    say_number(place);
    return false;
}

void say_store(const struct store *store)
{
    say(" ");
    say_number(store->len);
    for (size_t at = 0; at < store->len; at += FIXGW_STORE_PLACE) {
        size_t used = store->len - at < FIXGW_STORE_PLACE ? store->len - at : FIXGW_STORE_PLACE;
        while (used > 0 && bytes[at + used - 1] == 0)
            used--;
        if (used == 0)
            continue;
        say(",");
        say_number(at / FIXGW_STORE_PLACE);
        say("=");
        say_digits_of(bytes + at, used);
    }
}
