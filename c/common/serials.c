/* serials.c: the serials of daemons that follow one another. */
#include "caller.h"

/* How many of these have a bit. */
static int32_t told_apart(int32_t stale) { return stale < SERIALS_TOLD_APART ? stale : SERIALS_TOLD_APART; }

void serials_add(struct serials *serials, int32_t serial) {
    if (serial <= 0) return;
    if (serial > serials->highest) serials->highest = serial;
    if (serial <= told_apart(serials->stale)) serials->again[serial / 8] |= (uint8_t)(1 << serial % 8);
}

bool serials_is_stale(const struct serials *serials, int32_t serial) {
    if (serial <= 0 || serial > serials->stale) return false;
    return serial > told_apart(serials->stale) || !(serials->again[serial / 8] >> serial % 8 & 1);
}

static unsigned place_of(int32_t serial) { return (unsigned)serial % 64; }

void serials_add_plain(struct serials *serials, int32_t serial) {
    if (serial > 0) serials->plain[place_of(serial)] = serial;
}

bool serials_is_plain(const struct serials *serials, int32_t serial) {
    return serial > 0 && serials->plain[place_of(serial)] == serial;
}

int serials_begin_anew(struct serials *serials, int32_t told) {
    int32_t known = serials->highest > told ? serials->highest : told;
    int32_t stale = known > serials->stale ? known : serials->stale;
    uint8_t *again = calloc((size_t)told_apart(stale) / 8 + 1, 1), *before = serials->again;
    if (!again) return -1;
    *serials = (struct serials){ .stale = stale, .again = again };
    free(before);
    return 0;
}

void serials_clear(struct serials *serials) {
    uint8_t *before = serials->again;
    memset(serials, 0, sizeof *serials);
    free(before);
}
