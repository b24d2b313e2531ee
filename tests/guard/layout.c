/* layout: whether the structures of krs_screen.h are those of the crate: it gives each field a number of its own. */
#include "check.h"
#include "guard/krs_screen.h"

enum { EDGE = 64 };

/* Room behind a structure that must stay as it is. */
struct guarded {
    union {
        struct screen screen;
        struct screen_peer peer;
        struct screen_claim claim;
    };
    uint8_t edge[EDGE];
};

static bool ends(const struct guarded *it, size_t size) {
    for (size_t i = size; i < sizeof *it; i++)
        if (((const uint8_t *)it)[i] != 0xa5) return false;
    return true;
}

static bool is_flag(bool flag, bool wanted) {
    uint8_t byte;
    memcpy(&byte, &flag, 1);
    return byte == wanted;
}

static void check_flags(uint32_t which) {
    struct guarded screen, peer, claim;
    memset(&screen, 0xa5, sizeof screen);
    memset(&peer, 0xa5, sizeof peer);
    memset(&claim, 0xa5, sizeof claim);
    krs_screen_c_number_fields(&screen.screen, &peer.peer, &claim.claim, which);
    const struct screen *s = &screen.screen;
    check("asked, answered", s->asked == 1 && s->answered == 2);
    for (size_t i = 0; i < sizeof s->refused / sizeof *s->refused; i++) check("refused", s->refused[i] == 3);
    check("ask_left, reply_left", s->ask_left == 4 && s->reply_left == 5);
    check("first, count", s->first == 6 && s->count == 7);
    check("greeted", is_flag(s->greeted, which == 0));
    check("ask_fault", is_flag(s->ask_fault, which == 1));
    check("reply_fault", is_flag(s->reply_fault, which == 2));
    check("peer", peer.peer.uid == 8 && peer.peer.gid == 9 && peer.peer.unknown == 10);
    check("is_trusted", is_flag(peer.peer.is_trusted, which == 3));
    check("claim", claim.claim.uid == 11 && claim.claim.gid == 12 && claim.claim.count == 13);
    check("the end of screen", ends(&screen, sizeof(struct screen)));
    check("the end of screen_peer", ends(&peer, sizeof(struct screen_peer)));
    check("the end of screen_claim", ends(&claim, sizeof(struct screen_claim)));
}

int main(void) {
    for (uint32_t which = 0; which < 5; which++) check_flags(which);
    return conclude("layout");
}
