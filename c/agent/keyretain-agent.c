/* keyretain-agent: an OCI seccomp agent. A runtime of containers connects and sends the state of a container and the
 * listener of its seccomp filter; a process of its own then serves the key calls of that container, from a keyretaind
 * of its own. See keyretain-agent(8).
 *
 * This process only takes states and starts the others. It is one thread, with one poll(2) at which it waits. */
#include "keyretain-agent.h"

#include <getopt.h>
#include <sys/signalfd.h>

#include "common/listener.h"
#include "supervisor/serve.h"

#define AGENT_SOCKET "/run/keyretain-agent.sock"
#define AGENT_FOLDER "/run/keyretain-agent"

enum { USAGE = 2, NO_SOCKET = 3 };
enum { VISITORS_MAX = 16, LISTENING = VISITORS_MAX, SIGNALS, WAITS };

enum { MEMORY_MAX = 1024 * 1024, MEBIBYTE = 1024 * 1024, PAUSE = 20 /* milliseconds */ };

static const char usage[] = "usage: keyretain-agent [--socket PATH] [--folder PATH] [--daemon PROGRAM]\n"
                            "         [--containers N] [--memory MEBIBYTES]\n";
static const char help[] =
    "\nAnswers the key calls of containers, each from a keyretaind of its own: an OCI\n"
    "seccomp agent.\n\n"
    "  --socket PATH       where runtimes connect: " AGENT_SOCKET ", or what systemd passes\n"
    "  --folder PATH       where the daemons have their sockets: " AGENT_FOLDER "\n"
    "  --daemon PROGRAM    keyretaind: " KEYRETAIN_DAEMON "\n"
    "  --containers N      the most containers: 256\n"
    "  --memory MEBIBYTES  the most memory of each daemon, or 0 for no limit: 64\n"
    "  -h, --help          prints this\n"
    "  --version           prints the version\n";

static const char *socket_path; /* NULL: it is passed */
static struct containers_settings settings = { AGENT_FOLDER, KEYRETAIN_DAEMON, 64ul * MEBIBYTE, 256 };

static int listening = -1, signals = -1;

static _Noreturn void fail(const char *what) {
    bool is_foreign = errno == EACCES || errno == EPERM;
    fprintf(stderr, "keyretain-agent: %s: %s\n", what, strerror(errno));
    if (is_foreign && geteuid() != 0)
        fputs("keyretain-agent: root runs it; another user names a --socket and a --folder of its own\n", stderr);
    exit(NO_SOCKET);
}

/* ---- Words ---- */

static _Noreturn void fail_usage(void) {
    fputs(usage, stderr);
    exit(USAGE);
}

static unsigned number(const char *text, unsigned long least, unsigned long most) {
    int64_t value = number_in(text, 10, least, most);
    if (value < 0) fprintf(stderr, "keyretain-agent: no number from %lu to %lu: %s\n", least, most, text);
    if (value < 0) fail_usage();
    return (unsigned)value;
}

static void read_option(int option) {
    switch (option) {
    case 's': socket_path = optarg; break;
    case 'f': settings.folder = optarg; break;
    case 'd': settings.daemon = optarg; break;
    case 'c': settings.most = number(optarg, 1, CONTAINERS_MAX); break;
    case 'm': settings.memory = number(optarg, 0, MEMORY_MAX) * (unsigned long)MEBIBYTE; break;
    case 'h': answer_option("--help", usage, help, ""); break;
    case 'v': answer_option("--version", usage, help, "keyretain-agent " KEYRETAIN_VERSION); break;
    default: fail_usage();
    }
}

static void read_options(int count, char **words) {
    static const struct option known[] = {
        { "socket", 1, 0, 's' }, { "folder", 1, 0, 'f' },  { "daemon", 1, 0, 'd' }, { "containers", 1, 0, 'c' },
        { "memory", 1, 0, 'm' }, { "help", 0, 0, 'h' },    { "version", 0, 0, 'v' }, { 0, 0, 0, 0 } };
    for (int option; (option = getopt_long(count, words, "h", known, NULL)) != -1;) read_option(option);
    if (optind != count) fprintf(stderr, "keyretain-agent: no option: %s\n", words[optind]);
    if (optind != count) fail_usage();
}

/* ---- A runtime that has connected, and what has come from it so far ---- */

/* The annotations of a container are in its state, and may be long. */
enum { VISITOR_STATE_MAX = 1024 * 1024, VISITOR_DESCRIPTORS_MAX = 16, VISITOR_PATIENCE = 2000, LOOK = 100 };

struct visitor {
    bool is_here;
    int connection;
    int64_t deadline;
    char *text;              /* of VISITOR_STATE_MAX bytes, in no core file and in no child */
    size_t received, length; /* `length` is without what came behind the state */
    struct json_scan scan;
    int descriptors[VISITOR_DESCRIPTORS_MAX];
    unsigned count;
};

static struct visitor visitors[VISITORS_MAX];

/* Closes all that came but the listener, and leaves nothing of the state in memory. */
static void end_visit(struct visitor *visitor) {
    explicit_bzero(visitor->text, visitor->received);
    munmap(visitor->text, VISITOR_STATE_MAX);
    while (visitor->count > 0) close_one(&visitor->descriptors[--visitor->count]);
    close(visitor->connection);
    *visitor = (struct visitor){ 0 };
}

/* ---- Receiving ---- */

/* False where there are more than may come; these are closed. */
static bool keep_descriptors(struct visitor *visitor, struct msghdr *message) {
    bool all_kept = !(message->msg_flags & MSG_CTRUNC);
    for (struct cmsghdr *head = CMSG_FIRSTHDR(message); head; head = CMSG_NXTHDR(message, head)) {
        if (head->cmsg_level != SOL_SOCKET || head->cmsg_type != SCM_RIGHTS) continue;
        for (size_t at = CMSG_LEN(0); at + sizeof(int) <= head->cmsg_len; at += sizeof(int)) {
            int descriptor;
            memcpy(&descriptor, (const char *)head + at, sizeof descriptor);
            all_kept = all_kept && visitor->count < VISITOR_DESCRIPTORS_MAX;
            if (all_kept) visitor->descriptors[visitor->count++] = descriptor;
            if (!all_kept) close(descriptor);
        }
    }
    return all_kept;
}

/* Takes what has come. JSON_BROKEN: the visit is over, for nothing can come of it. */
static enum json_extent receive(struct visitor *visitor) {
    _Alignas(struct cmsghdr) char room[CMSG_SPACE(sizeof(int) * VISITOR_DESCRIPTORS_MAX)];
    struct iovec bytes = { visitor->text + visitor->received, VISITOR_STATE_MAX - visitor->received };
    struct msghdr message = { .msg_iov = &bytes, .msg_iovlen = 1, .msg_control = room, .msg_controllen = sizeof room };
    size_t used;
    ssize_t got = recvmsg(visitor->connection, &message, MSG_CMSG_CLOEXEC | MSG_DONTWAIT);
    if (got < 0) return errno == EAGAIN || errno == EINTR ? JSON_PARTIAL : JSON_BROKEN;
    visitor->received += (size_t)got;
    if (!keep_descriptors(visitor, &message) || got == 0) return JSON_BROKEN;
    enum json_extent extent = json_scan(&visitor->scan, bytes.iov_base, (size_t)got, &used);
    visitor->length += used;
    return extent;
}

/* ---- The listener ---- */

static bool is_seccomp_listener(int descriptor) {
    char path[40], kind[40] = "";
    snprintf(path, sizeof path, "/proc/self/fd/%d", descriptor);
    return readlink(path, kind, sizeof kind - 1) > 0 && strcmp(kind, "anon_inode:seccomp notify") == 0;
}

/* What a whole state says, and the listener that came with it, which is the caller's then; -1 where it isn't what a
 * runtime sends: as many descriptors as it names, and a listener of seccomp(2) in its place. */
static int take_listener(struct visitor *visitor, struct container_state *state) {
    if (!read_container_state(visitor->text, visitor->length, state)) return -1;
    if (state->descriptors != visitor->count || state->listener >= visitor->count) return -1;
    int listener = visitor->descriptors[state->listener];
    if (!is_seccomp_listener(listener)) return -1;
    visitor->descriptors[state->listener] = -1;
    return listener;
}

/* ---- Visitors ---- */

static struct visitor *free_place(void) {
    for (int i = 0; i < VISITORS_MAX; i++)
        if (!visitors[i].is_here) return &visitors[i];
    return NULL;
}

/* Only its own user may say which container is which. Where there is no memory for a state it is closed. */
static void accept_visitor(void) {
    struct visitor *visitor = free_place();
    int connection = visitor ? accept4(listening, NULL, NULL, SOCK_NONBLOCK | SOCK_CLOEXEC) : -1;
    if (visitor && connection < 0 && errno != EAGAIN) poll(NULL, 0, PAUSE); /* no descriptors, or no memory */
    if (connection < 0) return;
    bool is_own = is_own_peer(connection);
    char *text = is_own ? room_for_state(VISITOR_STATE_MAX) : NULL;
    if (!is_own) fputs("keyretain-agent: a connection of another user is refused\n", stderr);
    if (!text) close(connection);
    if (text)
        *visitor = (struct visitor){ .is_here = true, .connection = connection, .text = text,
                                     .deadline = kr_now() + VISITOR_PATIENCE };
}

/* Its state is whole. Nothing is left of the visit before anything is started. */
static void take_state(struct visitor *visitor) {
    struct container_state state;
    int listener = take_listener(visitor, &state);
    end_visit(visitor);
    if (listener < 0)
        fputs("keyretain-agent: a state is refused: no container, or no listener\n", stderr);
    else
        containers_take(&state, listener);
}

static void serve_visitor(struct visitor *visitor) {
    switch (receive(visitor)) {
    case JSON_WHOLE: take_state(visitor); break;
    case JSON_BROKEN:
        fputs("keyretain-agent: a state is refused: it is broken off, too long, or no object of JSON\n", stderr);
        end_visit(visitor);
        break;
    case JSON_PARTIAL: break;
    }
}

static void end_late_visitors(void) {
    int64_t now = kr_now();
    for (int i = 0; i < VISITORS_MAX; i++) {
        if (!visitors[i].is_here || visitors[i].deadline > now) continue;
        fputs("keyretain-agent: a state is refused: it hasn't come in time\n", stderr);
        end_visit(&visitors[i]);
    }
}

/* ---- The loop ---- */

/* Negative descriptors are not waited for: free places, and the socket while there is none. While somebody is here it
 * is looked again and again who is late. */
static void wait_for_events(struct pollfd waits[WAITS]) {
    int milliseconds = -1;
    for (int i = 0; i < VISITORS_MAX; i++) {
        waits[i] = (struct pollfd){ .fd = visitors[i].is_here ? visitors[i].connection : -1, .events = POLLIN };
        if (visitors[i].is_here) milliseconds = LOOK;
    }
    waits[LISTENING] = (struct pollfd){ .fd = free_place() ? listening : -1, .events = POLLIN };
    waits[SIGNALS] = (struct pollfd){ .fd = signals, .events = POLLIN };
    while (poll(waits, WAITS, milliseconds) < 0)
        if (errno != EINTR) fail("poll");
}

/* False once it is to end. */
static bool take_signals(void) {
    struct signalfd_siginfo said;
    bool goes_on = true;
    while (read(signals, &said, sizeof said) == sizeof said) goes_on = goes_on && said.ssi_signo == SIGCHLD;
    containers_reap();
    return goes_on;
}

static void run(void) {
    struct pollfd waits[WAITS];
    do {
        wait_for_events(waits);
        for (int i = 0; i < VISITORS_MAX; i++)
            if (waits[i].revents) serve_visitor(&visitors[i]);
        end_late_visitors();
        if (waits[LISTENING].revents) accept_visitor(); /* last: no event of this turn is then taken for its own */
    } while (!waits[SIGNALS].revents || take_signals());
}

/* ---- The start ---- */

static void watch_signals(void) {
    sigset_t set;
    sigemptyset(&set);
    sigaddset(&set, SIGTERM);
    sigaddset(&set, SIGINT);
    sigaddset(&set, SIGCHLD);
    signal(SIGCHLD, SIG_DFL); /* who ignores it reaps no children */
    if (sigprocmask(SIG_SETMASK, &set, NULL) < 0) fail("signals");
    signals = signalfd(-1, &set, SFD_CLOEXEC | SFD_NONBLOCK);
    if (signals < 0) fail("signals");
}

/* Whether only this user can connect, of a socket that is passed. */
static bool is_private(int socket) {
    struct sockaddr_un address = { 0 };
    socklen_t length = sizeof address - 1;
    struct stat status;
    if (getsockname(socket, (struct sockaddr *)&address, &length) < 0 || *address.sun_path != '/') return false;
    return lstat(address.sun_path, &status) == 0 && S_ISSOCK(status.st_mode) && status.st_uid == geteuid() &&
           (status.st_mode & 077) == 0;
}

static void listen_for_runtimes(void) {
    bool is_passed = !socket_path && getenv("LISTEN_FDS");
    if (!is_passed && !socket_path) socket_path = AGENT_SOCKET;
    const char *name = is_passed ? "(passed)" : socket_path;
    errno = EINVAL;
    listening = is_passed ? take_passed_listener() : open_listener(socket_path, 0600, DESCRIPTORS_TAKEN);
    if (listening < 0) fail(name);
    errno = EPERM;
    if (is_passed && !is_private(listening)) fail(name);
    printf("listening %s\n", name);
    if (fflush(stdout) != 0) fail("standard output");
}

int main(int count, char **words) {
    if (!fill_standard_descriptors()) exit(NO_SOCKET);
    read_options(count, words);
    umask(0077);
    if (serve_protect() < 0) fail("protection");
    watch_signals();
    if (!proc_is_ours()) fail("/proc");
    if (access(settings.daemon, X_OK) < 0) fail(settings.daemon);
    if (!containers_begin(&settings)) fail(settings.folder);
    listen_for_runtimes();
    run();
    if (socket_path) unlink(socket_path);
    containers_end();
    return 0;
}
