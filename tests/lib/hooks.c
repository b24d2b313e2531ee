/* hooks.c: what a program under test has in place of the system, by LD_PRELOAD or linked to it.
 *   KEYRETAIN_MOMENT=FILE   each clock tells the moment in this file: seconds, in 8 bytes
 *   KEYRETAIN_JUMPS=N       what waits for longer, and for N milliseconds in vain, has waited: clocks jump to its end
 *   KEYRETAIN_FAILS=KIND:N  the Nth ask, memory or system call, as KIND says, fails; the file that KEYRETAIN_TOLD names
 *                           is made then
 * An ask that fails is answered by ENOMEM, and isn't carried out, as it names a context that no client has. Those that
 * end one don't count. It wants the GNU C library. */
#define _GNU_SOURCE
#include "hooks.h"

#include <dlfcn.h>
#include <errno.h>
#include <fcntl.h>
#include <poll.h>
#include <pthread.h>
#include <spawn.h>
#include <stdarg.h>
#include <stdbool.h>
#include <stddef.h>
#include <stdint.h>
#include <stdlib.h>
#include <string.h>
#include <sys/mman.h>
#include <sys/random.h>
#include <sys/socket.h>
#include <sys/syscall.h>
#include <sys/time.h>
#include <time.h>
#include <unistd.h>

extern void *__libc_malloc(size_t), *__libc_calloc(size_t, size_t), *__libc_realloc(void *, size_t);
extern void *__libc_memalign(size_t, size_t);

enum { SECOND = 1000000000, MILLION = 1000000, FILES = 1024 };
enum { HEAD = 16 /* bytes of a reply that has nothing behind its tag */, EXIT = 260 };

static volatile const uint64_t *moment;
static int64_t jumps, ahead;        /* milliseconds, and the nanoseconds that clocks have jumped */
static int64_t waits[FILES][2];     /* milliseconds for which a socket's send and recv wait, where those jump */
static long left;
static char kind; /* of what fails: the first letter of its name; or 0 */
static volatile int is_refused; /* the ask that was sent */
static __thread int is_within __attribute__((tls_model("initial-exec")));

/* The function that one here stands before, which is looked for once. */
#define REAL(name) \
    ({ static __typeof__(&(name)) real; \
       is_within++; \
       if (!real) real = (__typeof__(real))dlsym(RTLD_NEXT, #name); \
       is_within--; \
       real; })

/* ---- What fails ---- */

void fail_nth(const char *of, long number) {
    left = number;
    kind = *of;
}

int has_failed(void) {
    kind = 0;
    return left <= 0;
}

static int fails(char of) {
    if (kind != of || is_within || __atomic_sub_fetch(&left, 1, __ATOMIC_SEQ_CST) != 0) return 0;
    const char *told = getenv("KEYRETAIN_TOLD");
    if (told) syscall(SYS_close, (int)syscall(SYS_openat, AT_FDCWD, told, O_CREAT | O_WRONLY, 0600));
    return 1;
}

#define MEMORY(call) (fails('m') ? (errno = ENOMEM, NULL) : (call))
void *malloc(size_t size) { return MEMORY(__libc_malloc(size)); }
void *calloc(size_t count, size_t size) { return MEMORY(__libc_calloc(count, size)); }
void *realloc(void *old, size_t size) { return MEMORY(__libc_realloc(old, size)); }
void *memalign(size_t alignment, size_t size) { return MEMORY(__libc_memalign(alignment, size)); }
void *aligned_alloc(size_t alignment, size_t size) { return memalign(alignment, size); }
int posix_memalign(void **room, size_t alignment, size_t size) {
    void *given = memalign(alignment, size);
    if (given) *room = given;
    return given ? 0 : ENOMEM;
}

#define SYSTEM(type, name, error, parameters, ...) \
    type name parameters { return fails('s') ? (errno = (error), (type)-1) : REAL(name)(__VA_ARGS__); }
SYSTEM(int, socket, ENFILE, (int domain, int type, int protocol), domain, type, protocol)
SYSTEM(int, bind, EADDRINUSE, (int end, const struct sockaddr *to, socklen_t length), end, to, length)
SYSTEM(int, getsockopt, EIO, (int end, int level, int option, void *value, socklen_t *length), end, level, option,
       value, length)
SYSTEM(int, pipe2, EMFILE, (int ends[2], int flags), ends, flags)
SYSTEM(int, dup2, EMFILE, (int from, int to), from, to)
SYSTEM(int, madvise, EINVAL, (void *at, size_t length, int advice), at, length, advice)
SYSTEM(void *, mmap, ENOMEM, (void *at, size_t length, int how, int flags, int file, off_t from), at, length, how,
       flags, file, from)
SYSTEM(pid_t, fork, EAGAIN, (void), )
SYSTEM(int, setenv, ENOMEM, (const char *name, const char *value, int replaces), name, value, replaces)
SYSTEM(ssize_t, getrandom, EIO, (void *room, size_t length, unsigned flags), room, length, flags)

int fcntl(int file, int command, ...) {
    va_list list;
    va_start(list, command);
    long argument = va_arg(list, long);
    va_end(list);
    return fails('s') ? (errno = EMFILE, -1) : REAL(fcntl)(file, command, argument);
}

int posix_spawn(pid_t *child, const char *path, const posix_spawn_file_actions_t *actions,
                const posix_spawnattr_t *attributes, char *const words[], char *const environment[]) {
    return fails('s') ? EAGAIN : REAL(posix_spawn)(child, path, actions, attributes, words, environment);
}

/* ---- Time ---- */

__attribute__((constructor)) static void begin(void) {
    const char *path = getenv("KEYRETAIN_MOMENT"), *least = getenv("KEYRETAIN_JUMPS");
    const char *wanted = getenv("KEYRETAIN_FAILS"), *number = wanted ? strchr(wanted, ':') : NULL;
    int file = path ? open(path, O_RDONLY | O_CLOEXEC) : -1;
    if (path) moment = mmap(NULL, sizeof *moment, PROT_READ, MAP_SHARED, file, 0);
    if (moment == MAP_FAILED) abort();
    if (path) close(file);
    if (least) jumps = atoi(least);
    if (number) fail_nth(wanted, atol(number + 1));
}

static int64_t count(const struct timespec *at) { return (int64_t)at->tv_sec * SECOND + at->tv_nsec; }
static struct timespec at(int64_t told) { return (struct timespec){ told / SECOND, told % SECOND }; }
static void jump(int64_t nanoseconds) { __atomic_add_fetch(&ahead, nanoseconds, __ATOMIC_SEQ_CST); }

int clock_gettime(clockid_t clock, struct timespec *now) {
    if (moment) return *now = (struct timespec){ .tv_sec = (time_t)*moment }, 0;
    int got = REAL(clock_gettime)(clock, now);
    if (ahead) *now = at(count(now) + ahead);
    return got;
}

int poll(struct pollfd *waited, nfds_t number, int milliseconds) {
    if (fails('s')) return errno = ENOMEM, -1;
    bool is_long = jumps && milliseconds > jumps;
    int ready = REAL(poll)(waited, number, is_long ? (int)jumps : milliseconds);
    if (is_long && ready == 0) jump((milliseconds - jumps) * MILLION);
    return ready;
}

int pthread_cond_clockwait(pthread_cond_t *condition, pthread_mutex_t *lock, clockid_t clock,
                           const struct timespec *until) {
    struct timespec now;
    REAL(clock_gettime)(clock, &now);
    int64_t end = count(until) - ahead, soon = count(&now) + jumps * MILLION;
    struct timespec first = at(jumps && end > soon ? soon : end);
    int error = REAL(pthread_cond_clockwait)(condition, lock, clock, &first);
    if (jumps && end > soon && error == ETIMEDOUT) jump(end - soon);
    return error;
}

/* ---- Sockets ---- */

int setsockopt(int end, int level, int option, const void *value, socklen_t length) {
    bool waits_in = level == SOL_SOCKET && (option == SO_RCVTIMEO || option == SO_SNDTIMEO) && end < FILES;
    struct timeval time;
    if (fails('s')) return errno = EINVAL, -1;
    if (!jumps || !waits_in) return REAL(setsockopt)(end, level, option, value, length);
    memcpy(&time, value, sizeof time);
    int64_t all = (int64_t)time.tv_sec * 1000 + time.tv_usec / 1000, first = all > jumps ? jumps : all;
    waits[end][option == SO_RCVTIMEO] = all > jumps ? all : 0;
    time = (struct timeval){ first / 1000, first % 1000 * 1000 };
    return REAL(setsockopt)(end, level, option, &time, sizeof time);
}

/* What a call answers that has waited at a socket. */
static ssize_t waited(int end, int receives, int flags, ssize_t got) {
    bool is_over = got < 0 && errno == EAGAIN && !(flags & MSG_DONTWAIT) && end < FILES && waits[end][receives];
    if (is_over) jump((waits[end][receives] - jumps) * MILLION);
    return got;
}

int connect(int end, const struct sockaddr *to, socklen_t length) {
    return fails('s') ? (errno = ECONNREFUSED, -1) : (int)waited(end, 0, 0, REAL(connect)(end, to, length));
}

/* A whole ask: how long it is, the version and the operation, the context, and more. */
ssize_t send(int end, const void *bytes, size_t size, int flags) {
    struct { uint32_t length; uint16_t version, operation; uint32_t context; } head;
    char ask[size];
    if (fails('s')) return errno = EPIPE, -1;
    if (kind != 'a' || size < sizeof head)
        return waited(end, 0, flags, REAL(send)(end, bytes, size, flags));
    memcpy(&head, bytes, sizeof head);
    memcpy(ask, bytes, size);
    is_refused |= head.length + sizeof head.length == size && head.operation != EXIT && fails('a');
    if (is_refused) memset(ask + offsetof(__typeof__(head), context), -1, sizeof head.context);
    return waited(end, 0, flags, REAL(send)(end, ask, size, flags));
}

/* A whole reply: how long it is and the status, 4 bytes each, and the tag. */
ssize_t recv(int end, void *room, size_t size, int flags) {
    const uint32_t refusal[] = { HEAD - 4, ENOMEM };
    if (fails('s')) return errno = ECONNRESET, -1;
    ssize_t got = waited(end, 1, flags, REAL(recv)(end, room, size, flags));
    if (got < HEAD || !is_refused || flags & MSG_PEEK) return got;
    is_refused = 0;
    memcpy(room, refusal, sizeof refusal);
    return HEAD;
}
