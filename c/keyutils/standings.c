/* standings.c: the connections of a process.
 *
 * LOCKS. `process.lock` is held for a few lines at a time, and over nothing that waits for the daemon: fork(2) takes
 * it, unless a handler of a signal forks in the midst of these lines, and the end of a thread. Who asks has the
 * standing of its identity to itself (`is_busy`) without holding a lock. The child of a fork therefore finds all of
 * `process` whole, and its standings free: no other thread of it is left. */
#include "standings.h"

#include <linux/capability.h>

/* So many asks are made on a connection that might be ended, where other threads wait: then other processes come to
 * their turn. */
enum { TURN = 64 };

/* A thread that waits for a standing that others have. */
struct waiter {
    const struct kr_identity *identity;
    pthread_cond_t is_called;
    struct standing *standing; /* that it was given */
    struct waiter *next;
};

static struct {
    pthread_mutex_t lock;
    struct standing standings[STANDINGS];
    struct waiter *first; /* who came first */
    unsigned last_age;
    unsigned long turn;
    struct kr_session *session;
    struct kr_file holder; /* what keeps it */
    struct kr_file handed; /* the same, where it was begun by what has executed this */
    pthread_key_t end_of_thread;
    bool has_end_of_thread;
} process = { .lock = PTHREAD_MUTEX_INITIALIZER, .holder = { .descriptor = -1 }, .handed = { .descriptor = -1 } };

/* Of this thread. */
static __thread struct {
    enum { UNSEEN, FIRST, OTHER } kind;
    bool is_fixed; /* nothing but its effective uid can change */
    struct kr_identity identity;
    struct thread_context own[STANDINGS];
    struct kr_session *session;
} thread;

bool standings_is_first_thread(void) {
    if (thread.kind == UNSEEN) thread.kind = gettid() == getpid() ? FIRST : OTHER;
    return thread.kind == FIRST;
}

/* Whether this thread is behind LOCKED, up to the end of the block. A handler of a signal that forks there finds the
 * lock taken by its own thread, and must not wait for it. */
static __thread volatile sig_atomic_t is_inside;

#define LOCKED int locked __attribute__((cleanup(unlock), unused)) = lock()
static int lock(void) {
    is_inside = 1;
    return pthread_mutex_lock(&process.lock);
}

static void unlock(const int *locked) {
    ERRNO_STAYS;
    (void)locked;
    pthread_mutex_unlock(&process.lock);
    is_inside = 0;
}

/* ---- What is done under the lock ---- */

/* The next one is to the same place, unless the daemon is to be looked for again. */
static void close_connection(struct standing *standing, bool is_same_place) {
    struct kr *connection = standing->connection;
    standing->connection = NULL;
    standing->shared = (struct thread_context){ 0 };
    standing->own = standing->ended_count = 0;
    standing->may_have_keyring = standing->is_kept = false;
    if (!is_same_place) *standing->where.path = '\0';
    kr_close(connection);
}

/* Tells the daemon of a context whose thread has ended, without waiting for anything; later where it takes nothing now
 * or another thread asks. */
static void end_context(struct standing *standing, uint32_t context) {
    bool is_told = !standing->is_busy && kr_tell(standing->connection, KR_EXIT, context);
    if (!is_told && standing->ended_count < KR_CONTEXTS) standing->ended[standing->ended_count++] = context;
    standing->own--;
}

/* ---- Fork, and the ends of threads ---- */

enum { FORK_SECONDS = 1 };

static __thread bool is_locked_for_fork;

/* A C library whose fork(2) runs one at a time may have it wait for one in a handler of whoever has the lock. So this
 * doesn't wait for ever, and the child then finds what it would find in that handler. */
static void before_fork(void) {
    struct timespec end;
    clock_gettime(CLOCK_REALTIME, &end);
    end.tv_sec += FORK_SECONDS;
    is_locked_for_fork = !is_inside && pthread_mutex_timedlock(&process.lock, &end) == 0;
}

static void after_fork(void) {
    if (is_locked_for_fork) pthread_mutex_unlock(&process.lock);
}

/* The child lets go of its copies of the connections, which would keep the parent's from ending. Of its threads only
 * this one is left, whose session is the child's. Where it was inside, nothing is taken from the lines that it comes
 * back to if the handler returns. */
static void in_child(void) {
    pthread_mutex_init(&process.lock, NULL);
    process.first = NULL;
    for (int i = 0; i < STANDINGS; i++) {
        if (is_locked_for_fork) close_connection(&process.standings[i], false);
        process.standings[i].is_busy = false;
    }
    if (!is_locked_for_fork) return;
    if (process.has_end_of_thread) pthread_setspecific(process.end_of_thread, NULL);
    thread.kind = FIRST;
    if (!thread.session) return;
    free(process.session);
    process.session = thread.session;
    thread.session = NULL;
}

/* A thread that returns can still be cancelled here, and would be with the lock in its hands. */
static void at_end_of_thread(void *unused) {
    UNCANCELLED;
    LOCKED;
    (void)unused;
    for (int i = 0; i < STANDINGS; i++) {
        struct standing *standing = &process.standings[i];
        if (standing->connection && standings_is_own(standing, &thread.own[i]))
            end_context(standing, thread.own[i].number);
        thread.own[i] = (struct thread_context){ 0 };
    }
    standings_set_own_session(NULL);
}

__attribute__((constructor)) static void begin(void) {
    const char *text = secure_getenv(KR_SESSION_VARIABLE);
    struct kr_session named;
    bool is_named = text && kr_parse_session(&named, text);
    if (is_named && (process.session = malloc(sizeof named)) != NULL) *process.session = named;
    if (process.session) process.handed = kr_handed_holder(process.session);
    pthread_atfork(before_fork, after_fork, in_child);
    process.has_end_of_thread = pthread_key_create(&process.end_of_thread, at_end_of_thread) == 0;
}

/* Where the library is unloaded no thread may come back to its code. Where the process ends instead, another thread
 * may be in the midst of a call, which is let be. */
__attribute__((destructor)) static void end(void) {
    is_inside = 1;
    if (pthread_mutex_trylock(&process.lock) != 0) {
        is_inside = 0;
        return;
    }
    if (process.has_end_of_thread) pthread_key_delete(process.end_of_thread);
    process.has_end_of_thread = false;
    for (int i = 0; i < STANDINGS; i++)
        if (!process.standings[i].is_busy) close_connection(&process.standings[i], false);
    unlock(NULL);
}

/* ---- Identity ---- */

/* Whether the gid and the groups of this thread can't change, nor more than its uids among themselves. */
static bool is_fixed(void) {
    struct __user_cap_header_struct header = { _LINUX_CAPABILITY_VERSION_3, 0 };
    struct __user_cap_data_struct data[_LINUX_CAPABILITY_U32S_3];
    gid_t real, effective, saved;
    getresgid(&real, &effective, &saved);
    return real == effective && saved == effective && syscall(SYS_capget, &header, data) == 0 &&
           !(data[0].permitted & (1U << CAP_SETGID | 1U << CAP_SETUID));
}

/* Rights come by execve(2) alone, so that what is fixed stays so. */
const struct kr_identity *standings_identity(void) {
    struct kr_identity now;
    if (thread.is_fixed && geteuid() == thread.identity.uid) return &thread.identity;
    kr_own_identity(&now);
    if (memcmp(&now, &thread.identity, sizeof now) != 0) {
        thread.identity = now;
        thread.is_fixed = is_fixed();
    }
    return &thread.identity;
}

/* ---- Standings ---- */

static bool is_standing_of(const struct standing *standing, const struct kr_identity *identity) {
    return standing->is_taken && memcmp(&standing->identity, identity, sizeof *identity) == 0;
}

static struct standing *find_standing(const struct kr_identity *identity) {
    for (int i = 0; i < STANDINGS; i++)
        if (is_standing_of(&process.standings[i], identity)) return &process.standings[i];
    return NULL;
}

/* A free place, or that of the identity which was not used longest, of those that no thread has: a user's daemon that
 * doesn't answer holds up nobody else. NULL where each is busy. The first stays, to which a server comes back from its
 * clients' identities. */
static struct standing *find_free(void) {
    struct standing *oldest = NULL;
    for (int i = 0; i < STANDINGS; i++) {
        struct standing *standing = &process.standings[i];
        if (!standing->is_taken) return standing;
        if (i > 0 && !standing->is_busy && (!oldest || standing->turn < oldest->turn)) oldest = standing;
    }
    return oldest;
}

static void clear_standing(struct standing *standing) {
    close_connection(standing, false);
    serials_clear(&standing->serials);
    standing->is_taken = false;
    standing->daemon = (struct daemon){ 0 };
    standing->is_own = false;
    standing->often = 0;
}

/* Ends what the identity had that the standing is taken from. */
static void settle(struct standing *standing, const struct kr_identity *identity) {
    if (is_standing_of(standing, identity)) return;
    clear_standing(standing);
    standing->identity = *identity;
    standing->is_taken = true;
}

/* The standing of this identity, which may be busy, or one that it may have; NULL where each is busy, and none is its
 * own. Ends what belongs to identities that this process can't have again. */
static struct standing *choose(const struct kr_identity *identity) {
    struct standing *standing = find_standing(identity);
    if (standing && standing->turn == process.turn) return standing; /* the same as at the last call */
    for (struct standing *at = process.standings; at < process.standings + STANDINGS; at++)
        if (at->is_taken && !at->is_busy && !kr_may_be_again(&at->identity)) clear_standing(at);
    return standing ? standing : find_free();
}

/* A thread whose identity has no standing takes any but the first. */
static bool may_have(const struct kr_identity *identity, const struct standing *standing) {
    const struct standing *own = find_standing(identity);
    return own ? own == standing : standing != process.standings;
}

/* To who waited longest of those that may have it. */
static void pass_on(struct standing *standing) {
    struct waiter *next = FIND(process.first, waiter, may_have(waiter->identity, standing));
    standing->is_busy = next != NULL;
    if (!next) return;
    TAKE_OUT(process.first, next);
    settle(standing, next->identity);
    next->standing = standing;
    pthread_cond_signal(&next->is_called);
}

/* Waits until a standing is passed on. NULL with ETIMEDOUT. */
static struct standing *wait_in_line(const struct kr_identity *identity, int64_t deadline) {
    const struct timespec end = { .tv_sec = deadline / 1000, .tv_nsec = deadline % 1000 * 1000000 };
    struct waiter self = { .identity = identity, .is_called = PTHREAD_COND_INITIALIZER }, **at = &process.first;
    while (*at) at = &(*at)->next;
    *at = &self;
    int error = 0;
    while (!self.standing && error == 0)
        error = pthread_cond_clockwait(&self.is_called, &process.lock, CLOCK_MONOTONIC, &end);
    if (!self.standing) TAKE_OUT(process.first, &self);
    pthread_cond_destroy(&self.is_called);
    errno = error;
    return self.standing;
}

struct standing *standings_take(const struct kr_identity *identity, int64_t deadline) {
    LOCKED;
    struct standing *standing = choose(identity);
    if (!standing || standing->is_busy) {
        standing = wait_in_line(identity, deadline);
    } else {
        settle(standing, identity);
        standing->is_busy = true;
    }
    if (standing) standing->turn = ++process.turn;
    return standing;
}

void standings_give_back(struct standing *standing, bool may_let_go) {
    LOCKED;
    if (standing->connection) standing->connection->was_seen = false;
    while (standing->connection && standing->ended_count > 0 &&
           kr_tell(standing->connection, KR_EXIT, standing->ended[standing->ended_count - 1]))
        standing->ended_count--;
    pass_on(standing);
    bool is_at_its_turn = standing->is_busy && standing->connection && standing->connection->asked < TURN;
    if (may_let_go && standing->connection && !is_at_its_turn) close_connection(standing, true);
}

/* ---- The connection of a standing that is busy ---- */

/* The socket is made under the lock, so that a child of fork(2) knows of it. */
struct kr *standings_prepare(struct standing *standing) {
    LOCKED;
    standing->shared.age = ++process.last_age;
    return standing->connection = kr_prepare(&standing->where, 0, standing->identity.uid);
}

int standings_begin_serials(struct standing *standing) {
    LOCKED;
    return serials_begin_anew(&standing->serials, 0);
}

void standings_drop(struct standing *standing, bool is_same_place) {
    LOCKED;
    close_connection(standing, is_same_place);
}

/* ---- This thread, and the process ---- */

struct thread_context *standings_own_context(const struct standing *standing) {
    return &thread.own[standing - process.standings];
}

bool standings_is_own(const struct standing *standing, const struct thread_context *own) {
    return own->number != 0 && own->age == standing->shared.age;
}

void standings_has_own(struct standing *standing) {
    LOCKED;
    standing->own++;
    if (process.has_end_of_thread) pthread_setspecific(process.end_of_thread, &process);
}

struct kr_session *standings_own_session(void) { return thread.session; }

void standings_set_own_session(struct kr_session *session) {
    free(thread.session);
    thread.session = session;
}

bool standings_session(struct kr_session *session) {
    LOCKED;
    if (process.session) *session = *process.session;
    return process.session != NULL;
}

bool standings_may_let_go(const struct standing *standing) {
    LOCKED;
    return standing->own == 0 && (kr_has_file(&process.holder) || kr_has_file(&process.handed));
}

void standings_set_session(struct kr_session *session, const struct kr_file *holder) {
    LOCKED;
    struct kr_session *old_session = process.session;
    struct kr_file old_holder = process.holder;
    process.session = session;
    process.holder = *holder;
    process.handed.descriptor = -1;
    kr_close_file(&old_holder);
    free(old_session);
}
