/* krs_screen.h: the rule of the guard, which is proved: the crates krs_screen and krs_screen_c, as libkrs_screen_c.a. A
 * slice of theirs is a pointer and a length here. tests/guard compares the structures with the crate's own. */
#ifndef KRS_SCREEN_H
#define KRS_SCREEN_H

#include <assert.h>
#include <stdbool.h>
#include <stddef.h>
#include <stdint.h>

/* What waits to be judged is shorter than these: the longest HELLO that is judged, and the head of a reply. */
enum { SCREEN_ASK_MAX = 20 + 12 + 4 * 32, SCREEN_REPLY_MAX = 8 };

/* How far a connection has come. Made by zeros, and then written by krs_screen_c alone. */
struct screen {
    uint64_t asked, answered;
    uint64_t refused[64];
    uint32_t ask_left, reply_left;
    uint32_t first, count; /* of the refused HELLOs whose replies are still to come */
    bool greeted, ask_fault, reply_fault;
};

/* Whom the kernel has named. `unknown` is what it says for gids that have no number here. */
struct screen_peer {
    uint32_t uid, gid, unknown;
    bool is_trusted;
};

/* Whom a HELLO names. */
struct screen_claim {
    uint32_t uid, gid, count;
};

static_assert(sizeof(struct screen) == 552 && offsetof(struct screen, reply_fault) == 546, "struct screen");
static_assert(sizeof(struct screen_peer) == 16 && offsetof(struct screen_peer, is_trusted) == 12, "struct screen_peer");
static_assert(sizeof(struct screen_claim) == 12, "struct screen_claim");

/* Whether a whole HELLO stands at the front, so that its peer's groups are wanted; and whom it names. */
bool krs_screen_c_find_claim(const uint8_t *bytes, size_t length, struct screen_claim *claim);

/* Judges the front of what a client has sent, and answers how many of these bytes may be passed on. */
size_t krs_screen_c_ask(struct screen *screen, const struct screen_peer *peer, const uint32_t *groups, size_t count,
                        uint8_t *bytes, size_t length);

/* The same for what the daemon has sent. */
size_t krs_screen_c_reply(struct screen *screen, uint8_t *bytes, size_t length);

/* Gives each field a number of its own, and the flag of this number true: for the test alone. */
void krs_screen_c_number_fields(struct screen *screen, struct screen_peer *peer, struct screen_claim *claim,
                                uint32_t flag);

#endif
