/* guard.c: keyretain-guard stands before a keyretaind that believes its clients, asks the kernel who each of them is,
 * and lets through only what they may say of themselves. This thread accepts clients, counts them, and ends those that
 * stay silent; each place for one has a thread of its own, which begins before the first client comes. */
#include "guard.h"

#include <sys/eventfd.h>
#include <sys/signalfd.h>

enum {
    ACCEPTS_A_TURN = 16,
    ENOUGH = 16, /* places that a uid gets without a look at how many are left */
    SPARE = 4 + REFUSED_FEW, /* descriptors: the listening socket, and what is open for a moment */
};

enum { SIGNALS, FREED, LISTENER, REFUSED }; /* what is waited for, the refused ones last */

static struct link links[CONNECTIONS_MAX];
static unsigned used;
static int listener = -1, signals = -1;
static int64_t next_deadline = INT64_MAX;

/* ---- Clients ---- */

/* A free place for a client of this uid; NULL where it gets none, and how many it has. Places are taken in this thread
 * alone. The last ones aren't for who has many. */
static struct link *find_place(uint32_t uid, unsigned *has) {
    struct link *found = NULL;
    unsigned same = 0;
    for (unsigned i = 0; i < options.connections; i++) {
        uint32_t owner;
        if (!find_owner(&links[i], &owner))
            found = &links[i];
        else
            same += owner == uid;
    }
    bool may = same < options.per_uid && (same < ENOUGH || same < options.connections - used);
    *has = same;
    return may || is_trusted_uid(uid) ? found : NULL;
}

/* Those who have no number here share one. */
static void begin_client(int client) {
    struct peer peer;
    unsigned has;
    bool is_known = find_peer(client, &peer), is_somebody = is_known && peer.uid != unknown_uid;
    if (is_known && !is_somebody) tell(OF_CLIENTS, "refused: a uid without a number here\n");
    if (!is_somebody) {
        close(client);
        return;
    }
    struct link *place = find_place(peer.uid, &has);
    if (!place) {
        tell(OF_CLIENTS, "refused: uid %u (pid %d) has %u of %u places\n", peer.uid, peer.pid, has,
             options.connections);
        refuse_client(client, peer.uid);
        return;
    }
    int64_t deadline = INT64_MAX;
    if (options.hello_seconds > 0) deadline = kr_now() + 1000 * (int64_t)options.hello_seconds;
    if (deadline < next_deadline) next_deadline = deadline;
    used++;
    begin_link(place, client, &peer, deadline);
    if (used == options.connections) tell(OF_CLIENTS, "all %u places are taken: who comes waits\n", used);
}

/* False where descriptors or memory were lacking: again after PAUSE. */
static bool accept_clients(void) {
    for (int i = 0; i < ACCEPTS_A_TURN && used < options.connections; i++) {
        int client = accept4(listener, NULL, NULL, SOCK_CLOEXEC);
        if (client >= 0)
            begin_client(client);
        else if (errno != ECONNABORTED && errno != EINTR)
            return errno == EAGAIN;
    }
    return true;
}

/* Ends those whose HELLO hasn't come for too long. */
static void end_silent(int64_t now) {
    if (now < next_deadline) return;
    next_deadline = INT64_MAX;
    for (unsigned i = 0; i < options.connections; i++) {
        int64_t next = end_if_silent(&links[i], now);
        if (next < next_deadline) next_deadline = next;
    }
}

/* ---- The loop ---- */

static int time_to_wait(int64_t next) {
    if (next == INT64_MAX) return -1;
    int64_t left = next - kr_now();
    return left < 0 ? 0 : left < 1000 ? (int)left + 1 : 1000;
}

/* Until a signal comes. Where all places are taken the next client waits. */
static void run(void) {
    struct pollfd waited[REFUSED + REFUSED_MAX] = { [SIGNALS] = { .fd = signals, .events = POLLIN },
                                                    [FREED] = { .fd = freed, .events = POLLIN } };
    uint64_t count;
    bool lacks = false;
    for (;;) {
        bool may_accept = used < options.connections && !lacks;
        waited[LISTENER] = (struct pollfd){ .fd = may_accept ? listener : -1, .events = POLLIN };
        int64_t next = put_refused(waited + REFUSED);
        if (next_deadline < next) next = next_deadline;
        int ready = poll(waited, REFUSED + (nfds_t)refused_most, lacks ? PAUSE : time_to_wait(next));
        if (ready > 0 && waited[SIGNALS].revents) return;
        if (ready > 0 && waited[FREED].revents && read(freed, &count, sizeof count) == (ssize_t)sizeof count)
            used -= (unsigned)count;
        end_silent(kr_now());
        end_refused(waited + REFUSED, kr_now());
        lacks = !accept_clients();
    }
}

/* ---- The start ---- */

static void open_events(void) {
    sigset_t set; /* of all threads, as they inherit it */
    sigemptyset(&set);
    sigaddset(&set, SIGTERM);
    sigaddset(&set, SIGINT);
    sigprocmask(SIG_BLOCK, &set, NULL);
    signal(SIGPIPE, SIG_IGN);
    signals = signalfd(-1, &set, SFD_CLOEXEC | SFD_NONBLOCK);
    freed = eventfd(0, EFD_CLOEXEC | EFD_NONBLOCK);
    if (signals < 0 || freed < 0) fail("error: socket", NO_SOCKET);
}

/* Two for each place, and some more. Where so many aren't to be had there are fewer places: else clients could take
 * all, and none would be left to reach the daemon. */
static void fit_descriptors(void) {
    struct rlimit limit;
    rlim_t wanted = 2 * options.connections + 16 + REFUSED_MAX, taken = SPARE;
    if (getrlimit(RLIMIT_NOFILE, &limit) < 0 || limit.rlim_cur >= wanted) return;
    limit.rlim_cur = wanted < limit.rlim_max ? wanted : limit.rlim_max;
    setrlimit(RLIMIT_NOFILE, &limit);
    getrlimit(RLIMIT_NOFILE, &limit);
    if (limit.rlim_cur < wanted) refused_most = REFUSED_FEW;
    errno = EMFILE;
    if (limit.rlim_cur < (rlim_t)(REFUSED + refused_most)) fail("error: socket", NO_SOCKET); /* poll(2) takes no more */
    for (int i = 0; (rlim_t)i < limit.rlim_cur; i++) taken += fcntl(i, F_GETFD) >= 0;
    rlim_t places = limit.rlim_cur > taken + 2 ? (limit.rlim_cur - taken) / 2 : 1;
    if (places >= options.connections) return;
    options.connections = (unsigned)places;
    fprintf(stderr, "keyretain-guard: so few files may be open that there are %u places\n", options.connections);
}

static void begin(void) {
    prctl(PR_SET_DUMPABLE, 0); /* no core files, and nobody of its uid looks into it */
    find_unknown_ids();
    open_events();
    fit_descriptors();
    if (!make_links(links, options.connections)) fail("error: threads", NO_SOCKET);
    errno = EINVAL; /* of a socket that is passed, and none that it takes */
    listener = options.listen_path ? open_listener(options.listen_path, options.mode, DESCRIPTORS_REFUSED)
                                   : take_passed_listener();
    if (listener < 0) fail("error: socket", NO_SOCKET);
    if (!options.listen_path) refuse_descriptors(listener);
    if (options.has_filter && !filter_system_calls()) fail("error: seccomp", NO_SOCKET);
    printf("listening %s\n", options.listen_path ? options.listen_path : "(passed)");
}

int main(int count, char **words) {
    static char line[256]; /* or stdio would ask for a terminal, when that is no longer allowed */
    setvbuf(stdout, line, _IOLBF, sizeof line);
    if (!fill_standard_descriptors()) exit(NO_SOCKET);
    read_options(count, words);
    if (!options.listen_path && !getenv("LISTEN_FDS")) {
        fputs("keyretain-guard: --listen PATH is missing, and systemd passes no socket\n", stderr);
        fail_usage();
    }
    begin();
    run();
    if (used) tell(OF_THE_END, "ends, and the sessions of %u connections with it\n", used);
    if (options.listen_path) unlink(options.listen_path);
    return 0;
}
