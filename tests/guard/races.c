/* races.c: for the thread sanitizer, which the proved rule has not been built with: shows it that each step changes
 * what is known of a connection. Linked with --wrap for both. */
#include "guard/krs_screen.h"

size_t __real_krs_screen_c_ask(struct screen *screen, const struct screen_peer *peer, const uint32_t *groups,
                               size_t count, uint8_t *bytes, size_t length);
size_t __real_krs_screen_c_reply(struct screen *screen, uint8_t *bytes, size_t length);
size_t __wrap_krs_screen_c_ask(struct screen *screen, const struct screen_peer *peer, const uint32_t *groups,
                               size_t count, uint8_t *bytes, size_t length);
size_t __wrap_krs_screen_c_reply(struct screen *screen, uint8_t *bytes, size_t length);

static void change(struct screen *screen) {
    volatile uint64_t *asked = &screen->asked;
    *asked = *asked;
}

size_t __wrap_krs_screen_c_ask(struct screen *screen, const struct screen_peer *peer, const uint32_t *groups,
                               size_t count, uint8_t *bytes, size_t length) {
    change(screen);
    return __real_krs_screen_c_ask(screen, peer, groups, count, bytes, length);
}

size_t __wrap_krs_screen_c_reply(struct screen *screen, uint8_t *bytes, size_t length) {
    change(screen);
    return __real_krs_screen_c_reply(screen, bytes, length);
}
