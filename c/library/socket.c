/* socket.c: the socket of a connection: how it is made, who listens, and how bytes go out and come by a deadline. */
#include "connection.h"

#include <sys/time.h>

enum { USUAL_PATIENCE = 30000, IN_SEND = 0, IN_RECV = 1, NAMES = 4 };

/* Nothing is sent or decoded any more, so nothing stays of what was to be: whoever has the connection may keep it. */
int kr_break_off(struct kr *connection, int error) {
    connection->broken = true;
    explicit_bzero(connection->memory->out, connection->out_end);
    explicit_bzero(connection->memory->in, connection->in_length);
    return fail_as(error);
}

/* ---- Time ---- */

void kr_begin_call(struct kr *connection) {
    int64_t end = connection->patience < 0 ? KR_NEVER : kr_now() + connection->patience;
    connection->deadline = end < connection->until ? end : connection->until;
}

int kr_milliseconds_left(const struct kr *connection) {
    if (connection->deadline == KR_NEVER) return -1;
    int64_t left = connection->deadline - kr_now();
    if (left > INT_MAX) return INT_MAX;
    return left > 0 ? (int)left : 0;
}

/* Has send or recv wait for as long as is left, which isn't 0. What the socket waits already does where it is longer by
 * less than a hundredth: so a call that is answered soon sets nothing. */
static int wait_in_socket(struct kr *connection, int which, int left) {
    int wanted = left < 0 ? 0 : left, *set = &connection->waits[which];
    if (*set == wanted || (wanted > 0 && *set > wanted && *set - wanted <= *set / 128)) return 0;
    struct timeval time = { .tv_sec = wanted / 1000, .tv_usec = wanted % 1000 * 1000 };
    int option = which == IN_SEND ? SO_SNDTIMEO : SO_RCVTIMEO;
    if (setsockopt(connection->socket.descriptor, SOL_SOCKET, option, &time, sizeof time) < 0) return -1;
    *set = wanted;
    return 0;
}

/* What a send or recv is called with, so that it ends by the deadline. */
static int prepare_to_wait(struct kr *connection, int which, int *flags) {
    int left = kr_milliseconds_left(connection);
    *flags = left == 0 ? MSG_DONTWAIT : 0;
    return left == 0 ? 0 : wait_in_socket(connection, which, left);
}

/* ---- Opening ---- */

/* NULL where there is none. A kernel that doesn't wipe it in children leaves them to be told by their pid. */
static struct kr_memory *make_memory(pid_t *owner) {
    struct kr_memory *memory =
        mmap(NULL, sizeof *memory, PROT_READ | PROT_WRITE, MAP_PRIVATE | MAP_ANONYMOUS, -1, 0);
    if (memory == MAP_FAILED) return NULL;
    *owner = madvise(memory, sizeof *memory, MADV_WIPEONFORK) < 0 ? getpid() : 0;
    madvise(memory, sizeof *memory, MADV_DONTDUMP);
    memory->is_here = true;
    return memory;
}

struct kr *kr_prepare(const struct kr_where *where, unsigned flags, uid_t user) {
    _Static_assert(sizeof where->path == sizeof(((struct sockaddr_un *)NULL)->sun_path), "a path of unix(7)");
    if (flags & ~(unsigned)KR_ANY_SERVER) return fail_as(EINVAL), NULL;
    struct kr *connection = calloc(1, sizeof *connection);
    if (!connection) return NULL;
    *connection = (struct kr){ .socket.descriptor = -1, .patience = USUAL_PATIENCE, .until = KR_NEVER, .user = user,
                               .trusts_anybody = flags & KR_ANY_SERVER, .place = where->place,
                               .address.sun_family = AF_UNIX };
    memcpy(connection->address.sun_path, where->path, sizeof where->path);
    connection->memory = make_memory(&connection->owner);
    int opened = connection->memory ? move_up(socket(AF_UNIX, SOCK_STREAM | SOCK_CLOEXEC, 0)) : -1;
    if (kr_take_file(&connection->socket, opened)) return connection;
    kr_close(connection);
    return NULL;
}

/* A connect that a signal interrupts has not begun, and is made again. One that finds the backlog full waits as send
 * does: a millisecond at least. */
static int connect_in_time(struct kr *connection) {
    const struct sockaddr *address = (const struct sockaddr *)&connection->address;
    socklen_t length = (socklen_t)(offsetof(struct sockaddr_un, sun_path) + strlen(connection->address.sun_path) + 1);
    for (;;) {
        int left = kr_milliseconds_left(connection);
        if (wait_in_socket(connection, IN_SEND, left == 0 ? 1 : left) < 0) return -1;
        if (connect(connection->socket.descriptor, address, length) == 0) return 0;
        bool is_interrupted = errno == EINTR && !connection->interruptible;
        if (is_interrupted && left != 0) continue;
        return is_interrupted || errno == EAGAIN ? fail_as(ETIMEDOUT) : -1;
    }
}

/* Who listens may be told what the connection's user keeps: not who owns a path, which may be turned. Another thread
 * may have taken another identity since, and would trust its own daemon. */
int kr_connect(struct kr *connection) {
    const struct peer *peer = &connection->peer;
    bool is_anybody = connection->place <= KR_EXPORTED && connection->trusts_anybody;
    if (connect_in_time(connection) < 0 || !find_peer(connection->socket.descriptor, &connection->peer)) return -1;
    const char *path = connection->address.sun_path;
    bool is_trusted = is_anybody || kr_is_trusted(connection->place, path, connection->user, peer->uid);
    return is_trusted ? 0 : fail_as(EACCES);
}

struct kr *kr_open_with(const char *path, unsigned flags, int milliseconds) {
    UNCANCELLED;
    struct kr_where where;
    struct kr *connection = kr_locate(&where, path) < 0 ? NULL : kr_prepare(&where, flags, geteuid());
    if (!connection) return NULL;
    connection->patience = milliseconds < 0 ? -1 : milliseconds;
    kr_begin_call(connection);
    if (kr_connect(connection) == 0) return connection;
    kr_close(connection);
    return NULL;
}

struct kr *kr_open(const char *path) { return kr_open_with(path, 0, USUAL_PATIENCE); }

bool kr_is_ours(const struct kr *connection) {
    bool is_here = connection->owner == 0 ? connection->memory->is_here : connection->owner == getpid();
    return is_here && kr_has_file(&connection->socket);
}

bool kr_take_name(struct kr *connection) {
    struct sockaddr_un name = { .sun_family = AF_UNIX }; /* a null byte first: it is no path */
    for (int i = 0; i < NAMES && !connection->has_name && kr_is_ours(connection); i++) {
        int length = snprintf(name.sun_path + 1, sizeof name.sun_path - 1, "keyretain-kept/%d%.80s", i,
                              connection->address.sun_path);
        socklen_t size = (socklen_t)(offsetof(struct sockaddr_un, sun_path) + 1 + (size_t)length);
        connection->has_name = bind(connection->socket.descriptor, (const struct sockaddr *)&name, size) == 0;
    }
    return connection->has_name;
}

void kr_close(struct kr *connection) {
    ERRNO_STAYS;
    UNCANCELLED;
    if (!connection) return;
    kr_close_file(&connection->socket);
    if (connection->memory) munmap(connection->memory, sizeof *connection->memory); /* the system clears its pages */
    free(connection);
}

/* ---- What is set and told ---- */

int kr_set_patience(struct kr *connection, int milliseconds) {
    connection->patience = milliseconds < 0 ? -1 : milliseconds;
    return kr_is_ours(connection) ? 0 : fail_as(ECONNRESET);
}

void kr_set_interruptible(struct kr *connection, int interruptible) { connection->interruptible = interruptible != 0; }
int kr_is_broken(const struct kr *connection) { return connection->broken; }

int kr_descriptor(const struct kr *connection) {
    return kr_has_file(&connection->socket) ? connection->socket.descriptor : -1;
}

void kr_peer(const struct kr *connection, uint32_t *uid, uint32_t *gid, int32_t *pid) {
    if (uid) *uid = connection->peer.uid;
    if (gid) *gid = connection->peer.gid;
    if (pid) *pid = connection->peer.pid;
}

/* ---- Bytes ---- */

/* After a send or recv that failed: 0 where it is to be tried again. */
static int after_failure(struct kr *connection) {
    if (errno == EINTR) return connection->interruptible ? -1 : 0;
    if (errno != EAGAIN && errno != EWOULDBLOCK) return kr_break_off(connection, ECONNRESET);
    return kr_milliseconds_left(connection) == 0 ? fail_as(ETIMEDOUT) : 0;
}

/* Sends what `out` has. Where it is interrupted the rest stays there, to go out before the next ask. */
int kr_flush(struct kr *connection) {
    uint8_t *out = connection->memory->out;
    int flags;
    while (connection->out_start < connection->out_end) {
        if (prepare_to_wait(connection, IN_SEND, &flags) < 0) return kr_break_off(connection, ECONNRESET);
        ssize_t sent = send(connection->socket.descriptor, out + connection->out_start,
                            connection->out_end - connection->out_start, MSG_NOSIGNAL | flags);
        if (sent < 0) {
            if (after_failure(connection) < 0) return -1;
            continue;
        }
        explicit_bzero(out + connection->out_start, (size_t)sent); /* it may have been a payload */
        connection->out_start += (size_t)sent;
    }
    connection->out_start = connection->out_end = 0;
    return 0;
}

int kr_receive_bytes(struct kr *connection) {
    int flags;
    for (;;) {
        if (prepare_to_wait(connection, IN_RECV, &flags) < 0) return kr_break_off(connection, ECONNRESET);
        ssize_t got = recv(connection->socket.descriptor, connection->memory->in + connection->in_length,
                           sizeof connection->memory->in - connection->in_length, flags);
        if (got == 0) return kr_break_off(connection, ECONNRESET);
        if (got > 0) {
            connection->in_length += (size_t)got;
            return 0;
        }
        if (after_failure(connection) < 0) return -1;
    }
}
