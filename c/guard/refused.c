/* refused.c: see guard.h. */
#include "guard.h"

enum { PATIENCE = 5000 /* milliseconds */, VERSION = 4, TAG = 12, ASK_MIN = 12, TAGGED_MIN = 20, STATUS_END = 8 };

int refused_most = REFUSED_MAX;

/* With a deadline of 0 it is free. */
static struct refused {
    int client;
    uint32_t uid;
    int64_t deadline;
} all[REFUSED_MAX];

static void end(struct refused *refused) {
    close(refused->client);
    *refused = (struct refused){ 0 };
}

/* Free ones come first, as their deadline is the least. */
void refuse_client(int client, uint32_t uid) {
    struct refused *first = all, *own = NULL;
    for (int i = 0; i < refused_most; i++) {
        if (all[i].deadline < first->deadline) first = &all[i];
        if (all[i].deadline > 0 && all[i].uid == uid && (!own || all[i].deadline < own->deadline)) own = &all[i];
    }
    struct refused *room = first->deadline == 0 || !own ? first : own;
    if (room->deadline > 0) end(room);
    *room = (struct refused){ client, uid, kr_now() + PATIENCE };
}

int64_t put_refused(struct pollfd *waited) {
    int64_t next = INT64_MAX;
    for (int i = 0; i < refused_most; i++) {
        bool is_here = all[i].deadline > 0;
        waited[i] = (struct pollfd){ .fd = is_here ? all[i].client : -1, .events = POLLIN };
        if (is_here && all[i].deadline < next) next = all[i].deadline;
    }
    return next;
}

/* A reply in the version of the ask, to its tag if it has one: keyretain-protocol(7). An ask of which not even the head
 * has come in one piece gets none. What else has come, which may be secret, is wiped. */
static void answer(int client) {
    uint8_t ask[SCREEN_ASK_MAX], reply[STATUS_END + 8] = { STATUS_END - 4, 0, 0, 0, EDQUOT };
    ssize_t got = recv(client, ask, sizeof ask, MSG_DONTWAIT);
    bool is_tagged = got >= TAGGED_MIN && ask[VERSION] == 2 && ask[VERSION + 1] == 0;
    bool is_plain = got >= ASK_MIN && ask[VERSION] == 1 && ask[VERSION + 1] == 0;
    if (is_tagged) {
        memcpy(reply + STATUS_END, ask + TAG, 8);
        reply[0] += 8;
    }
    if (is_tagged || is_plain) send(client, reply, 4u + reply[0], MSG_DONTWAIT | MSG_NOSIGNAL);
    explicit_bzero(ask, sizeof ask);
}

void end_refused(const struct pollfd *waited, int64_t now) {
    for (int i = 0; i < refused_most; i++) {
        if (all[i].deadline == 0) continue;
        if (waited[i].revents) answer(all[i].client);
        if (waited[i].revents || all[i].deadline <= now) end(&all[i]);
    }
}
