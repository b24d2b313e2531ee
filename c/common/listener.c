/* listener.c: see listener.h. */
#include "common.h"

#include "listener.h"

enum { FIRST_PASSED_DESCRIPTOR = 3 };

#ifndef SO_PASSRIGHTS
#define SO_PASSRIGHTS 83
#endif

bool fill_standard_descriptors(void) {
    int opened;
    do opened = open("/dev/null", O_RDWR | O_CLOEXEC);
    while (opened >= 0 && opened <= STDERR_FILENO);
    return opened >= 0 && close(opened) == 0;
}

bool put_address(struct sockaddr_un *address, const char *path) {
    memset(address, 0, sizeof *address);
    address->sun_family = AF_UNIX;
    if (!*path || strlen(path) >= sizeof address->sun_path) return false;
    strcpy(address->sun_path, path);
    return true;
}

static bool has_option(int socket, int option, int wanted) {
    int value = 0;
    socklen_t length = sizeof value;
    return getsockopt(socket, SOL_SOCKET, option, &value, &length) == 0 && value == wanted;
}

int take_passed_listener(void) {
    const char *pid = getenv("LISTEN_PID"), *count = getenv("LISTEN_FDS");
    int listener = FIRST_PASSED_DESCRIPTOR;
    struct peer listens;
    if (!pid || !count || atol(pid) != getpid() || strcmp(count, "1") != 0) return -1;
    if (!has_option(listener, SO_DOMAIN, AF_UNIX) || !has_option(listener, SO_TYPE, SOCK_STREAM)) return -1;
    /* another user's, at which that user listens too, comes with that user's variables, as after su(1) */
    if (!find_peer(listener, &listens) || (listens.uid != 0 && listens.uid != geteuid())) return -1;
    if (!has_option(listener, SO_ACCEPTCONN, 1) || fcntl(listener, F_SETFD, FD_CLOEXEC) < 0) return -1;
    return fcntl(listener, F_SETFL, fcntl(listener, F_GETFL) | O_NONBLOCK) < 0 ? -1 : listener;
}

/* Whether a socket lies there that nobody listens to, as a process that was killed leaves it. */
static bool is_stale(const struct sockaddr_un *address) {
    struct stat status;
    ERRNO_STAYS;
    /* a listener whose queue is full would have a socket that waits wait */
    int probe = socket(AF_UNIX, SOCK_STREAM | SOCK_CLOEXEC | SOCK_NONBLOCK, 0);
    if (probe < 0) return false;
    int refused = connect(probe, (const struct sockaddr *)address, sizeof *address) < 0 && errno == ECONNREFUSED;
    close(probe);
    return refused && lstat(address->sun_path, &status) == 0 && S_ISSOCK(status.st_mode);
}

void refuse_descriptors(int listener) {
    const int are_passed = 0;
    setsockopt(listener, SOL_SOCKET, SO_PASSRIGHTS, &are_passed, sizeof are_passed);
}

int open_listener(const char *path, unsigned mode, enum descriptors descriptors) {
    struct sockaddr_un address;
    const struct sockaddr *there = (const struct sockaddr *)&address;
    if (!put_address(&address, path)) return fail_as(*path ? ENAMETOOLONG : ENOENT);
    int listener = socket(AF_UNIX, SOCK_STREAM | SOCK_NONBLOCK | SOCK_CLOEXEC, 0);
    if (listener < 0) return -1;
    if (descriptors == DESCRIPTORS_REFUSED) refuse_descriptors(listener);
    umask(~mode & 0777);
    bool is_bound = bind(listener, there, sizeof address) == 0 ||
                    (errno == EADDRINUSE && is_stale(&address) && unlink(path) == 0 &&
                     bind(listener, there, sizeof address) == 0);
    umask(0077);
    if (is_bound && listen(listener, SOMAXCONN) == 0) return listener;
    if (is_bound) unlink(path);
    close(listener);
    return -1;
}

bool is_own_peer(int connection) {
    struct peer peer;
    return find_peer(connection, &peer) && peer.uid == geteuid();
}
