/* fuzz SECONDS SEED: random streams of asks and replies through the guard's rule, whole and in pieces. Both must pass
 * the same, and what passes is read by a plain reader of frames that was written apart from the rule, after
 * docs/FORMAT.md: each HELLO in it is the peer's or one that the daemon refuses, and each frame is the client's but for
 * a void HELLO's uid. Replies are made up for what passed and screened in pieces too. With -DFUZZER it is a target of
 * libFuzzer. */
#include <assert.h>
#include <stdio.h>
#include <stdlib.h>
#include <string.h>
#include <time.h>

#include "guard/krs_screen.h"

enum { IN_MAX = 1 << 18, FRAMES_MAX = IN_MAX / 12 + 1, PIECE_MAX = 65536, REPLIES_MAX = 64 * FRAMES_MAX };

static const struct screen_peer PEER = { 1, 2, 0xfffffffe, false };
static const uint32_t GROUPS[] = { 3 };

static bool is_group(uint32_t gid) { return gid == 2 || gid == 3; }

static uint32_t le(const uint8_t *at, int width) {
    uint32_t number = 0;
    while (width-- > 0) number = number << 8 | at[width];
    return number;
}

static void put(uint8_t *at, uint32_t number, int width) {
    for (int i = 0; i < width; i++) at[i] = (uint8_t)(number >> 8 * i);
}

/* As the guard does it. */
static size_t screen_asks(struct screen *screen, uint8_t *bytes, size_t length) {
    size_t at = 0, passed = 1;
    while (at < length && passed > 0) {
        struct screen_claim claim;
        bool is_hello = screen->ask_left == 0 && krs_screen_c_find_claim(bytes + at, length - at, &claim);
        passed = krs_screen_c_ask(screen, &PEER, GROUPS, is_hello ? 1 : 0, bytes + at, length - at);
        at += passed;
    }
    return at;
}

static size_t screen_replies(struct screen *screen, uint8_t *bytes, size_t length) {
    size_t at = 0, passed = 1;
    while (at < length && passed > 0) at += passed = krs_screen_c_reply(screen, bytes + at, length - at);
    return at;
}

/* Passes a stream in these pieces, over and over, or whole. */
static size_t run_asks(struct screen *screen, const uint8_t *in, size_t length, uint8_t *out, const uint8_t *cuts,
                       size_t cut_count) {
    static uint8_t buffer[SCREEN_ASK_MAX + PIECE_MAX];
    size_t held = 0, made = 0, cut = 0;
    while (length > 0 && !screen->ask_fault) {
        size_t piece = cut_count ? cuts[cut++ % cut_count] % 40 + 1u : length;
        if (piece > length) piece = length;
        if (piece > PIECE_MAX) piece = PIECE_MAX;
        memcpy(buffer + held, in, piece);
        size_t there = held + piece, passed = screen_asks(screen, buffer, there);
        assert(passed <= there);
        memcpy(out + made, buffer, passed);
        made += passed;
        held = there - passed;
        assert(screen->ask_fault || held < SCREEN_ASK_MAX);
        memmove(buffer, buffer + passed, held);
        in += piece;
        length -= piece;
    }
    return made;
}

static bool is_known(uint32_t op) {
    static const uint16_t all[] = { 0,  1,  2,   3,   4,   5,   6,   7,   8,   9,   10,  11,  15,  21, 29,
                                    30, 32, 256, 257, 258, 259, 260, 261, 262, 263, 264, 265, 266, 267 };
    for (size_t i = 0; i < sizeof all / sizeof *all; i++)
        if (all[i] == op) return true;
    return false;
}

/* A HELLO as it was passed, and as its client sent it. Answers whether it was made void. */
static bool read_hello(const uint8_t *frame, const uint8_t *original, size_t here, size_t whole, size_t head) {
    assert(here >= head + 12);
    uint32_t uid = le(frame + head, 4), gid = le(frame + head + 4, 4), count = le(frame + head + 8, 4);
    assert((uint64_t)count * 4 + head + 12 == whole);
    assert(memcmp(frame, original, head) == 0);
    assert(memcmp(frame + head + 4, original + head + 4, here - head - 4) == 0);
    if (uid == UINT32_MAX) return count <= 32 && memcmp(frame + head, original + head, 4) != 0;
    assert(here == whole && count <= 32 && memcmp(frame + head, original + head, 4) == 0);
    bool is_nobody = gid == UINT32_MAX, is_own = uid == 1 && is_group(gid);
    for (uint32_t i = 0; i < count; i++) {
        uint32_t group = le(frame + head + 12 + 4 * i, 4);
        is_nobody = is_nobody || group == UINT32_MAX;
        is_own = is_own && is_group(group);
    }
    assert(is_own || is_nobody);
    return false;
}

/* What a daemon gets, beside what the client sent. Answers how many whole asks there are, which of them were made void,
 * and which have tags. */
static size_t read_passed(const uint8_t *sent, const uint8_t *passed, size_t length, uint8_t *is_void,
                          uint8_t *tagged) {
    size_t at = 0, asks = 0;
    while (at < length) {
        const uint8_t *frame = passed + at;
        assert(length - at >= 12);
        uint32_t size = le(frame, 4), version = le(frame + 4, 2), op = le(frame + 6, 2);
        assert(size >= 8 && size <= 65536 && (version == 1 || version == 2) && is_known(op));
        assert(version == 1 || size >= 16);
        size_t whole = size + 4u, here = length - at < whole ? length - at : whole, head = version == 1 ? 12 : 20;
        tagged[asks] = version == 2;
        is_void[asks] = op == 256 && read_hello(frame, sent + at, here, whole, head);
        if (op != 256) assert(memcmp(frame, sent + at, here) == 0);
        if (here < whole) return asks;
        at += here;
        asks++;
    }
    return asks;
}

/* What a daemon might answer, which refuses each HELLO that was made void. */
static size_t make_replies(uint8_t *replies, size_t asks, const uint8_t *is_void, const uint8_t *tagged,
                           const uint8_t *cuts, size_t cut_count) {
    size_t made = 0;
    for (size_t i = 0; i < asks; i++) {
        uint32_t body = is_void[i] ? 0 : cuts[i % cut_count] % 24u, size = 4 + (tagged[i] ? 8 : 0) + body;
        put(replies + made, size, 4);
        memset(replies + made + 4, (int)i, size);
        put(replies + made + 4, is_void[i] ? 22 : cuts[i % cut_count] % 2 ? 0 : 126, 4);
        made += 4 + size;
    }
    return made;
}

/* Those come through in pieces, with EPERM where a HELLO was made void and nowhere else. */
static void check_replies(struct screen *screen, const uint8_t *replies, size_t made, size_t asks,
                          const uint8_t *is_void, const uint8_t *cuts, size_t cut_count) {
    static uint8_t told[REPLIES_MAX];
    uint8_t buffer[64];
    size_t at = 0, cut = 0, held = 0, out = 0;
    while (at < made) {
        size_t piece = cuts[cut++ % cut_count] % 40 + 1u;
        if (piece > made - at) piece = made - at;
        memcpy(buffer + held, replies + at, piece);
        size_t passed = screen_replies(screen, buffer, held + piece);
        assert(!screen->reply_fault);
        memcpy(told + out, buffer, passed);
        out += passed;
        held += piece - passed;
        assert(held < SCREEN_REPLY_MAX);
        memmove(buffer, buffer + passed, held);
        at += piece;
    }
    assert(held == 0 && out == made && screen->reply_left == 0);
    at = 0;
    for (size_t i = 0; i < asks; i++) {
        uint32_t size = le(told + at, 4);
        assert(size == le(replies + at, 4));
        assert(le(told + at + 4, 4) == (is_void[i] ? 1 : le(replies + at + 4, 4)));
        assert(memcmp(told + at + 8, replies + at + 8, size - 4) == 0);
        at += size + 4;
    }
}

/* A count of cuts, the cuts, and then the stream. */
int LLVMFuzzerTestOneInput(const uint8_t *data, size_t length);
int LLVMFuzzerTestOneInput(const uint8_t *data, size_t length) {
    static uint8_t one[IN_MAX], two[IN_MAX], is_void[FRAMES_MAX], tagged[FRAMES_MAX], replies[REPLIES_MAX];
    struct screen whole = { 0 }, pieces = { 0 };
    if (length < 2 || length > IN_MAX || length < 1u + data[0] % 16u + 1) return 0;
    size_t cut_count = data[0] % 16u + 1, in_length = length - 1 - cut_count;
    const uint8_t *cuts = data + 1, *in = data + 1 + cut_count;
    size_t a = run_asks(&whole, in, in_length, one, NULL, 0);
    size_t b = run_asks(&pieces, in, in_length, two, cuts, cut_count);
    assert(whole.ask_fault == pieces.ask_fault && whole.asked == pieces.asked && whole.greeted == pieces.greeted);
    assert(a == b && memcmp(one, two, a) == 0);
    size_t asks = read_passed(in, one, a, is_void, tagged);
    assert(asks <= whole.asked && whole.asked <= asks + 1);
    size_t made = make_replies(replies, asks, is_void, tagged, cuts, cut_count);
    check_replies(&pieces, replies, made, asks, is_void, cuts, cut_count);
    /* Bytes that are no replies do no harm. */
    memcpy(two, in, in_length);
    assert(screen_replies(&whole, two, in_length) <= in_length && whole.answered <= whole.asked);
    return 0;
}

#ifndef FUZZER

static uint64_t state;

static uint32_t draw(uint32_t below) {
    state = state * 6364136223846793005u + 1442695040888963407u;
    return (uint32_t)(state >> 33) % below;
}

static uint32_t draw_id(void) {
    static const uint32_t ids[] = { 1, 2, 3, 3, 2, 9, UINT32_MAX, 1 };
    return ids[draw(8)];
}

static size_t put_hello(uint8_t *at) {
    uint32_t count = draw(20) ? draw(4) : draw(40);
    put(at, draw(3) ? 1 : draw_id(), 4);
    put(at + 4, draw(3) ? 2 : draw_id(), 4);
    put(at + 8, draw(80) ? count : count + 1, 4);
    for (uint32_t i = 0; i < count; i++) put(at + 12 + 4 * i, draw(6) ? 3 : draw_id(), 4);
    return 12 + 4 * count;
}

static size_t put_ask(uint8_t *at) {
    uint32_t version = draw(60) ? 1 + draw(2) : draw(4);
    uint32_t op = draw(3) ? 256 : draw(50) ? draw(12) + (draw(2) ? 256 : 0) : draw(400);
    size_t head = version == 2 ? 20 : 12, body = draw(60);
    put(at + 4, version, 2);
    put(at + 6, op, 2);
    put(at + 8, draw(5), 4);
    for (size_t i = 12; i < head + body; i++) at[i] = (uint8_t)draw(256);
    if (op == 256) body = put_hello(at + head);
    put(at, draw(150) ? (uint32_t)(head + body) - 4 : draw(3) ? draw(20) : 65530 + draw(20), 4);
    return head + body;
}

int main(int count, char **words) {
    static uint8_t data[IN_MAX];
    if (count < 3) return 2;
    time_t end = time(NULL) + atoi(words[1]);
    unsigned long streams = 0;
    state = strtoull(words[2], NULL, 10);
    for (; time(NULL) < end; streams++) {
        size_t length = 1, asks = draw(200);
        data[0] = (uint8_t)draw(16);
        for (int i = 0; i <= data[0]; i++) data[length++] = (uint8_t)draw(256);
        for (size_t i = 0; i < asks; i++) length += put_ask(data + length);
        LLVMFuzzerTestOneInput(data, length);
    }
    printf("fuzz: %lu streams passed, 0 failed\n", streams);
    return 0;
}

#endif
