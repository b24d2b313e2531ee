/* peer.c: see guard.h. */
#include "guard.h"

#include <stdarg.h>

enum { GROUPS_MAX = 65536 }; /* of a process: NGROUPS_MAX */

uint32_t unknown_uid = UINT32_MAX, unknown_gid = UINT32_MAX;

static pthread_mutex_t groups_lock = PTHREAD_MUTEX_INITIALIZER, tell_lock = PTHREAD_MUTEX_INITIALIZER;
static pthread_cond_t next_turn = PTHREAD_COND_INITIALIZER;
static unsigned turns, turn; /* how many were given, and whose it is: a mutex alone would let who is fastest go first */

static_assert(sizeof(gid_t) == sizeof(uint32_t), "gid_t");

/* Where the namespace has all ids none is unknown: user_namespaces(7). */
static uint32_t unknown_of(const char *map, const char *unknown) {
    bool has_all = number_of_file(map, "%*u %*u %u", 0) == UINT32_MAX;
    return has_all ? UINT32_MAX : number_of_file(unknown, "%u", OVERFLOW_ID);
}

void find_unknown_ids(void) {
    unknown_uid = unknown_of("/proc/self/uid_map", "/proc/sys/kernel/overflowuid");
    unknown_gid = unknown_of("/proc/self/gid_map", "/proc/sys/kernel/overflowgid");
}

uint32_t *borrow_groups(int client, size_t *count) {
    static uint32_t groups[GROUPS_MAX];
    socklen_t size = sizeof groups;
    pthread_mutex_lock(&groups_lock);
    for (unsigned own = turns++; own != turn;) pthread_cond_wait(&next_turn, &groups_lock);
    pthread_mutex_unlock(&groups_lock);
    bool are_known = getsockopt(client, SOL_SOCKET, SO_PEERGROUPS, groups, &size) == 0;
    *count = are_known ? size / sizeof *groups : 0;
    return groups;
}

void return_groups(void) {
    pthread_mutex_lock(&groups_lock);
    turn++;
    pthread_cond_broadcast(&next_turn);
    pthread_mutex_unlock(&groups_lock);
}

void tell(enum lines most, const char *format, ...) {
    static int64_t second; /* under the lock, as what comes next */
    static enum lines told;
    char line[256]; /* it has at most a path of sockets, and 140 bytes */
    struct pollfd error = { .fd = STDERR_FILENO, .events = POLLOUT };
    va_list values;
    va_start(values, format);
    int length = vsnprintf(line, sizeof line, format, values);
    va_end(values);
    pthread_mutex_lock(&tell_lock);
    if (kr_now() / 1000 != second) told = 0;
    second = kr_now() / 1000;
    bool may_tell = told < most;
    told += may_tell;
    /* a pipe that takes something takes a short line */
    bool takes = may_tell && poll(&error, 1, 0) == 1 && (error.revents & POLLOUT);
    if (takes && write(STDERR_FILENO, line, (size_t)length) < length) length = 0;
    pthread_mutex_unlock(&tell_lock);
}
