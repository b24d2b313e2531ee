/* link.c: see guard.h. What is passed on, and as what, krs_screen says, which is proved: here are the sockets alone. */
#include "guard.h"

enum {
    STACK_SIZE = 262144, /* of a thread; a few pages of it are used */
    CLAIMED_MAX = 32,    /* groups of a HELLO: keyretain-protocol(7) */
    UNTAKEN_MOST = 32768, /* bytes that a socket keeps for who doesn't take them; twice, with what the system adds */
    FIRST_REPLY = 5000,  /* milliseconds, after which it is told that a daemon hasn't answered */
    UNTAKEN = 30000,     /* milliseconds, for which a client may take nothing of what it is to be given */
};

int freed = -1;
static sem_t begun; /* once by each thread */

/* From here to the end of the block this thread has the lock of a link. */
#define LOCKED(link) pthread_mutex_t *locked __attribute__((cleanup(unlock), unused)) = lock(link)
static pthread_mutex_t *lock(struct link *link) {
    pthread_mutex_lock(&link->lock);
    return &link->lock;
}
static void unlock(pthread_mutex_t *const *locked) { pthread_mutex_unlock(*locked); }

/* ---- What is judged ---- */

/* Of a peer's groups those that a whole HELLO names, whose last fields they are: the rule compares each with each, and
 * a peer may be in 65,536. What is left are the peer's in any case. */
static size_t keep_named(uint32_t *groups, size_t count, const uint8_t *bytes, size_t length,
                         const struct screen_claim *claim) {
    uint32_t named[CLAIMED_MAX + 1] = { claim->gid }, frame;
    size_t kept = 0, size = sizeof *groups * claim->count;
    if (claim->count > CLAIMED_MAX) return 0; /* which is refused from anybody */
    memcpy(&frame, bytes, sizeof frame);
    if (frame > length - sizeof frame || size > frame) return count;
    memcpy(named + 1, bytes + sizeof frame + frame - size, size);
    for (size_t i = 0; i < count; i++) {
        bool is_named = false;
        for (size_t at = 0; at <= claim->count; at++) is_named |= groups[i] == named[at];
        if (is_named) groups[kept++] = groups[i];
    }
    return kept;
}

/* The next frame, or the next part of one. Answers how many bytes may be passed on, and whom a HELLO names. */
static size_t screen_ask(struct link *link, uint8_t *bytes, size_t length, struct screen_claim *claim) {
    const struct screen_peer peer = { link->peer.uid, link->peer.gid, unknown_gid, is_trusted_uid(link->peer.uid) };
    const uint32_t none[1] = { 0 };
    if (link->screen.ask_left > 0 || !krs_screen_c_find_claim(bytes, length, claim))
        return krs_screen_c_ask(&link->screen, &peer, none, 0, bytes, length);
    size_t count;
    uint32_t *groups = borrow_groups(link->client, &count);
    count = keep_named(groups, count, bytes, length, claim);
    size_t passed = krs_screen_c_ask(&link->screen, &peer, groups, count, bytes, length);
    return_groups();
    return passed;
}

static void screen_asks(struct link *link) {
    const struct peer *peer = &link->peer;
    struct way *asks = &link->asks;
    size_t passed = 1;
    while (asks->passed < asks->there && passed > 0) {
        struct screen_claim claim = { 0, 0, 0 };
        uint32_t refused = link->screen.count;
        passed = screen_ask(link, asks->bytes + asks->passed, asks->there - asks->passed, &claim);
        asks->passed += passed;
        if (link->screen.count == refused) continue;
        tell(OF_CLIENTS, "refused: uid %u, gid %u (pid %d) named uid %u, gid %u, %u groups\n", peer->uid, peer->gid,
             peer->pid, claim.uid, claim.gid, claim.count);
    }
    if (link->screen.greeted && !link->has_greeted) {
        LOCKED(link);
        link->has_greeted = true;
    }
    if (link->screen.ask_fault) asks->is_over = true;
}

static void screen_replies(struct link *link) {
    struct way *replies = &link->replies;
    size_t passed = 1;
    while (replies->passed < replies->there && passed > 0) {
        size_t at = replies->passed;
        passed = krs_screen_c_reply(&link->screen, replies->bytes + at, replies->there - at);
        replies->passed += passed;
    }
    if (!link->screen.reply_fault) return;
    replies->is_over = true;
    tell(OF_DAEMON, "what the daemon at %s answers is no reply\n", options.daemon.sun_path);
}

/* Whether so many whole asks await their reply, and no ask or reply has come in part. */
static bool awaits(const struct link *link, uint64_t count) {
    const struct screen *screen = &link->screen;
    return screen->asked == screen->answered + count && screen->ask_left == 0 && screen->reply_left == 0;
}

/* ---- The connection to the daemon ---- */

/* What a client or the daemon doesn't take the system keeps, and counts it as the guard's memory: for all clients that
 * would be more than the guard's unit allows, which would end them all. */
static void keep_little(int socket) {
    const int most = UNTAKEN_MOST;
    setsockopt(socket, SOL_SOCKET, SO_SNDBUF, &most, sizeof most);
}

/* A connection to the daemon; -1 with errno, which is EAGAIN where its queue of connections is full. */
static int connect_once(void) {
    int server = socket(AF_UNIX, SOCK_STREAM | SOCK_NONBLOCK | SOCK_CLOEXEC, 0);
    if (server >= 0 && (connect(server, (struct sockaddr *)&options.daemon, sizeof options.daemon) < 0 ||
                        fcntl(server, F_SETFL, 0) < 0))
        close_one(&server);
    if (server >= 0) keep_little(server);
    return server;
}

/* From here on the connection, or none with -1, ends with its client's. False where that has ended already. */
static bool set_server(struct link *link, int server) {
    LOCKED(link);
    if (!link->is_ended) link->server = server;
    return !link->is_ended;
}

/* Once for each client: there is no daemon, or none of its lanes is free. */
static void tell_daemon(struct link *link, const char *what) {
    ERRNO_STAYS;
    if (!link->is_told) tell(OF_DAEMON, "the daemon at %s: %s\n", options.daemon.sun_path, what);
    link->is_told = true;
}

static bool open_server(struct link *link) {
    int server;
    while ((server = connect_once()) < 0) {
        if (errno != EINTR) tell_daemon(link, errno == EAGAIN ? "too many wait for it" : strerrordesc_np(errno));
        if (!may_be_again() || !set_server(link, -1)) return false;
    }
    if (!set_server(link, server)) {
        close(server);
        return false;
    }
    link->asks.to = server;
    begin_way(&link->replies, server, link->client);
    return true;
}

/* ---- What is moved ---- */

/* Whatever was looked at may stay in its socket while the other side has the word. Whether more has come with what was
 * taken. */
static bool give_asks(struct link *link) {
    bool may_stay = link->screen.answered < link->screen.asked && link->screen.ask_left == 0;
    return give(&link->asks) && !may_stay && take(&link->asks);
}

static bool give_replies(struct link *link) {
    bool may_stay = awaits(link, 0) && !link->asks.is_over;
    return give(&link->replies) && !may_stay && take(&link->replies);
}

/* The daemon is asked for with the first whole frame, so that a silent client holds no lane. */
static void pass_asks(struct link *link) {
    do {
        screen_asks(link);
        if (link->asks.passed > 0 && link->server < 0 && !open_server(link)) {
            link->asks.is_over = true;
            return;
        }
    } while (give_asks(link));
}

/* The asks are taken once their reply is given, so that their client wakes for that alone; and the replies before more
 * asks go on. */
static void pass_replies(struct link *link) {
    bool has_more = true, has_asks = false;
    while (has_more) {
        screen_replies(link);
        has_more = give_replies(link);
        has_asks = take(&link->asks) || has_asks;
        if (has_asks && take(&link->replies)) has_more = true;
    }
    if (has_asks) pass_asks(link);
}

/* A reply that nobody has asked for is one, whatever is asked next: so the last ones are taken first. */
static void read_asks(struct link *link) {
    struct way *asks = &link->asks;
    bool has_asks = bring(asks, asks->there == 0 && awaits(link, 0));
    if (take(&link->replies)) pass_replies(link);
    if (has_asks) pass_asks(link);
}

static void read_replies(struct link *link) {
    struct way *replies = &link->replies;
    if (take(replies) || bring(replies, replies->there == 0 && awaits(link, 1))) pass_replies(link);
}

/* What is waited for at a socket: something to read, where the last has been given and taken; or room for more. */
static short events_of(const struct way *read, const struct way *given) {
    bool reads = !read->is_over && read->passed == 0 && read->untaken == 0;
    return (short)((reads ? POLLIN : 0) | (given->passed > 0 ? POLLOUT : 0));
}

/* While a client is to have the word, the daemon may still end. False where the client takes nothing: before Linux 6.16
 * its process may have ended, and its connection lie in a socket that nobody reads, sent there as a descriptor. */
static bool wait_and_move(struct link *link) {
    const struct screen *screen = &link->screen;
    struct way *asks = &link->asks, *replies = &link->replies;
    struct pollfd client = { .fd = link->client, .events = events_of(asks, replies) };
    struct pollfd server = { .fd = link->server, .events = events_of(replies, asks) };
    if (replies->untaken > 0) server.events |= POLLRDHUP;
    if (client.events == 0) client.fd = -1; /* or its end would be told for ever */
    if (server.events == 0) server.fd = -1;
    struct pollfd both[] = { client, server };
    /* the daemon is to answer this client for the first time, and nobody was told yet that it doesn't */
    bool is_first = link->server >= 0 && screen->asked > 0 && screen->answered == 0 && screen->ask_left == 0;
    bool is_given = replies->passed > 0;
    int ready = poll(both, 2, is_given ? UNTAKEN : is_first && !link->is_told ? FIRST_REPLY : -1);
    if (ready == 0 && !is_given) tell_daemon(link, "no answer, as where it has no free lane or no memory");
    if (ready <= 0) return ready < 0 || !is_given;
    short of_client = both[0].revents, of_server = both[1].revents;
    if (of_server && asks->passed > 0 && give_asks(link)) pass_asks(link);
    if ((of_server & ~POLLOUT) && (server.events & ~POLLOUT)) read_replies(link);
    if (of_client && replies->passed > 0 && give_replies(link)) pass_replies(link);
    if ((of_client & ~POLLOUT) && (client.events & POLLIN)) read_asks(link);
    return true;
}

/* The daemon is told that no more asks come; what it answers to those that it has is still passed on. */
static void move(struct link *link) {
    bool is_told = false;
    keep_little(link->client);
    begin_way(&link->asks, link->client, -1);
    begin_way(&link->replies, -1, link->client);
    while (!is_done(&link->replies)) {
        if (link->asks.is_over && link->server < 0) return;
        if (is_done(&link->asks) && !is_told) {
            is_told = true;
            shutdown(link->server, SHUT_WR);
        } else if (!wait_and_move(link)) {
            return;
        }
    }
}

static void end_link(struct link *link) {
    const uint64_t one = 1;
    end_way(&link->asks);
    end_way(&link->replies);
    pthread_mutex_lock(&link->lock);
    close(link->client);
    if (link->server >= 0) close(link->server);
    link->client = link->server = -1;
    explicit_bzero(&link->screen, sizeof link->screen);
    link->is_ended = link->has_greeted = link->is_told = false;
    pthread_mutex_unlock(&link->lock);
    while (write(freed, &one, sizeof one) < 0 && may_be_again()) continue;
}

static void *serve(void *given) {
    struct link *link = given;
    sem_post(&begun);
    for (;;) {
        TEMP_FAILURE_RETRY(sem_wait(&link->has_client));
        move(link);
        end_link(link);
    }
    return NULL;
}

/* ---- Places ---- */

bool make_links(struct link *links, unsigned count) {
    pthread_attr_t attributes;
    pthread_t thread;
    if (sem_init(&begun, 0, 0) < 0 || pthread_attr_init(&attributes) != 0) return false;
    bool are_made = pthread_attr_setstacksize(&attributes, STACK_SIZE) == 0 &&
                    pthread_attr_setdetachstate(&attributes, PTHREAD_CREATE_DETACHED) == 0;
    for (struct link *link = links; are_made && link < links + count; link++) {
        link->client = link->server = -1;
        are_made = pthread_mutex_init(&link->lock, NULL) == 0 && sem_init(&link->has_client, 0, 0) == 0 &&
                   pthread_create(&thread, &attributes, serve, link) == 0;
    }
    for (unsigned i = 0; are_made && i < count; i++) TEMP_FAILURE_RETRY(sem_wait(&begun));
    pthread_attr_destroy(&attributes);
    return are_made;
}

void begin_link(struct link *link, int client, const struct peer *peer, int64_t deadline) {
    LOCKED(link);
    link->client = client;
    link->peer = *peer;
    link->deadline = deadline;
    sem_post(&link->has_client);
}

bool find_owner(struct link *link, uint32_t *uid) {
    LOCKED(link);
    *uid = link->peer.uid;
    return link->client >= 0;
}

int64_t end_if_silent(struct link *link, int64_t now) {
    LOCKED(link);
    if (link->client < 0 || link->is_ended || link->has_greeted) return INT64_MAX;
    if (link->deadline > now) return link->deadline;
    link->is_ended = true;
    shutdown(link->client, SHUT_RDWR);
    if (link->server >= 0) shutdown(link->server, SHUT_RDWR);
    return INT64_MAX;
}
