/* caller.c: the contexts of a process's threads, and its session. */
#include "standings.h"

#include <sys/single_threaded.h>

/* A call ends after so long; one that finds no free lane, where the daemon accepts nothing, sooner. */
enum { CALL_MILLISECONDS = 30000, OPENING_MILLISECONDS = 10000, LONGEST_PAUSE = 64 };

static __thread int64_t limit = KR_NEVER;

int64_t caller_limit(int64_t until) {
    int64_t before = limit;
    limit = until;
    return before;
}

/* ---- Connections ---- */

/* EAGAIN is of a process that can't be made for a keeper. */
static int set_no_daemon(void) {
    bool is_lacking = errno == ENOMEM || errno == EAGAIN || errno == EMFILE || errno == ENFILE;
    return is_lacking || errno == EACCES || errno == ETIMEDOUT ? -1 : fail_as(ENOSYS);
}

/* Whom this standing asks from now on. What a user's own daemon was told isn't told to the system's in its place.
 * Serials of another daemon than the last one's mean nothing. */
static int meet_daemon(struct standing *standing) {
    struct kr *connection = standing->connection;
    const struct daemon none = { 0 };
    struct daemon daemon = { .process = connection->peer.pid };
    struct stat file;
    if (connection->peer.pid == 0 && stat(connection->address.sun_path, &file) == 0)
        daemon = (struct daemon){ .device = (int64_t)file.st_dev, .inode = (int64_t)file.st_ino,
                                  .made = file.st_mtim.tv_sec, .and_nanoseconds = file.st_mtim.tv_nsec };
    bool is_other = memcmp(&standing->daemon, &none, sizeof none) != 0 &&
                    memcmp(&standing->daemon, &daemon, sizeof daemon) != 0;
    if (standing->is_own && connection->place == KR_SYSTEM) return fail_as(ENOSYS);
    if (is_other && standings_begin_serials(standing) < 0) return -1;
    standing->daemon = daemon;
    standing->is_own = connection->place == KR_OWN;
    return 0;
}

/* Another thread may take another identity while the daemon is looked for, which is that one's then: it isn't
 * trusted. */
static int open_connection(struct standing *standing, int64_t deadline) {
    bool is_found = *standing->where.path || kr_locate(&standing->where, NULL) == 0;
    if (!is_found || !standings_prepare(standing)) return set_no_daemon();
    standing->connection->until = deadline;
    kr_begin_call(standing->connection);
    if (kr_connect(standing->connection) == 0 && meet_daemon(standing) == 0) return 0;
    standings_drop(standing, false);
    return set_no_daemon();
}

/* ---- Contexts ---- */

/* Enters a session in a new context of a standing. One whose serial isn't known is made where it isn't there. It is the
 * standing's user's: another thread may have become another one since. */
static int enter_session(const struct standing *standing, uint32_t context, const struct kr_session *session,
                         bool *is_lost) {
    const uint32_t uid = standing->identity.uid;
    int entered;
    if (session->serial != 0)
        entered = kr_enter_named(standing->connection, context, session, uid);
    else
        entered = kr_begin_session(standing->connection, context, session->name, uid) > 0 ? 0
                  : errno == EACCES                                                       ? 1
                                                                                          : -1;
    *is_lost = entered == 1;
    return entered < 0 ? -1 : 0;
}

/* Ends a context in which no session could be entered; errno stays. */
static void drop_context(struct kr *connection, uint32_t context) {
    ERRNO_STAYS;
    if (!kr_is_broken(connection)) kr_exit(connection, context);
}

/* HELLO, and the session. */
static int begin_standing(struct standing *standing) {
    struct kr_session session;
    int64_t context = kr_hello_as(standing->connection, &standing->identity);
    if (context < 0) return -1;
    bool is_in_one = standings_session(&session), is_lost = false;
    if (is_in_one && enter_session(standing, (uint32_t)context, &session, &is_lost) < 0) return -1;
    standing->shared.number = (uint32_t)context;
    standing->shared.lost_session = is_lost;
    standing->is_kept = is_in_one && session.serial != 0 && !is_lost;
    return 0;
}

/* On a new connection after fork(2), after the daemon ended it, and after the program closed it. One on which no
 * context was made is ended, and what the daemon may do for it with it. Where the guard has no place for the user's
 * connections, one may be free in a moment. It says so, or in a crowd ends some without a word. */
static int have_shared_context(struct standing *standing, int64_t call_end) {
    int64_t opening_end = kr_now() + OPENING_MILLISECONDS, end = opening_end < call_end ? opening_end : call_end;
    for (int pause = 1;; pause = pause < LONGEST_PAUSE ? 2 * pause : pause) {
        struct kr *connection = standing->connection;
        if (connection) connection->was_seen = !connection->broken && kr_is_ours(connection);
        if (connection && !connection->was_seen) standings_drop(standing, false);
        if (!standing->connection && open_connection(standing, end) < 0) return -1;
        if (standing->shared.number != 0) return 0;
        standing->connection->until = end;
        if (begin_standing(standing) == 0) return 0;
        standings_drop(standing, true);
        bool is_crowded = errno == EDQUOT || (errno == ECONNRESET && pause < LONGEST_PAUSE);
        if (!is_crowded || kr_now() + pause >= end) return -1;
        poll(NULL, 0, pause);
    }
}

/* EDQUOT where the connection has as many as it may. */
static int64_t make_context(const struct standing *standing, uint32_t from) {
    int64_t made = kr_thread(standing->connection, from);
    if (made < 0 && errno == EINVAL) errno = EDQUOT;
    return made;
}

/* The context of this thread: its own, if it has one; the shared one, unless `wants_own`; else a new one, which is its
 * own then, with the shared one's process, and its session or that which the thread has joined. NULL with errno. */
static struct thread_context *choose_context(struct standing *standing, bool wants_own) {
    struct thread_context *own = standings_own_context(standing);
    const struct kr_session *session = standings_own_session();
    if (standings_is_own(standing, own)) return own;
    if (!wants_own) return &standing->shared;
    int64_t made = make_context(standing, standing->shared.number);
    if (made < 0) return NULL;
    struct thread_context begun = { standing->shared.age, (uint32_t)made, standing->shared.lost_session };
    if (session && enter_session(standing, begun.number, session, &begun.lost_session) < 0)
        return drop_context(standing->connection, begun.number), NULL;
    standings_has_own(standing);
    *own = begun;
    return own;
}

static int enter_context(struct caller *caller) {
    struct standing *standing = caller->standing;
    if (have_shared_context(standing, caller->deadline) < 0) return -1;
    bool wants_own = caller->names_thread || standings_own_session() || (caller->joins && !standings_is_first_thread());
    standing->connection->until = caller->deadline;
    const struct thread_context *context = choose_context(standing, wants_own);
    if (!context) return -1;
    caller->connection = standing->connection;
    caller->serials = &standing->serials;
    caller->context = context->number;
    caller->lost_session = context->lost_session;
    return 0;
}

bool caller_enter(struct caller *caller) {
    caller->begun = kr_now();
    caller->deadline = caller->begun + CALL_MILLISECONDS;
    if (limit < caller->deadline) caller->deadline = limit;
    pthread_setcancelstate(PTHREAD_CANCEL_DISABLE, &caller->cancelling);
    caller->standing = standings_take(standings_identity(), caller->deadline);
    if (caller->standing && enter_context(caller) == 0) return true;
    caller_leave(caller, -1);
    return false;
}

/* ---- Leaving ---- */

/* Who asks again within DRAINED milliseconds, and has done so OFTEN times, keeps the connection until nothing was asked
 * for a second. What a call itself takes doesn't count: else a slow daemon would have more to do. */
enum { DRAINED = 16, OFTEN = 16, MOST_OFTEN = 64 };

static bool asks_often(const struct caller *caller) {
    struct standing *standing = caller->standing;
    int64_t drained = caller->begun > standing->answered ? (caller->begun - standing->answered) / DRAINED : 0;
    standing->often = drained < standing->often ? standing->often - (unsigned)drained : 0;
    if (standing->often < MOST_OFTEN) standing->often++;
    standing->answered = kr_now();
    return standing->often > OFTEN;
}

/* A connection takes a lane of the daemon. So it isn't held where nothing ends with it: no keyring of a thread or the
 * process, and no session that doesn't last as long as the process by itself, as that of a login. Who asks often may
 * fall silent, and so holds it with a name that few can have. */
static bool may_let_go(const struct caller *caller) {
    const struct standing *standing = caller->standing;
    if (!standing->connection || !standing->is_kept || standing->may_have_keyring) return false;
    bool is_often = asks_often(caller);
    if (is_often && standing->connection->has_name) return false;
    return standings_may_let_go(standing) && !(is_often && kr_take_name(standing->connection));
}

/* A context that the daemon doesn't know is no error of the program's: the next call begins anew. */
void caller_leave(struct caller *caller, long result) {
    struct standing *standing = caller->standing;
    ERRNO_STAYS;
    if (standing && caller->may_hold) standing->may_have_keyring = true;
    if (standing && result < 0 && errno == ESRCH) standings_drop(standing, false);
    if (standing) standings_give_back(standing, may_let_go(caller));
    pthread_setcancelstate(caller->cancelling, NULL);
}

/* ---- Sessions ---- */

/* Whether no other thread may be in getenv(3) while this one is in setenv(3). The C library knows it of a process that
 * never had another; else each thread is a folder, which counts as a link of the folder that they are in. */
static bool is_one_thread(void) {
    struct stat status;
    return __libc_single_threaded || (stat("/proc/self/task", &status) == 0 && status.st_nlink == 3);
}

/* Enters a session that was made just now. EKEYREVOKED where it is gone again. */
static int enter_made(struct standing *standing, struct thread_context *context, const struct kr_session *session) {
    int entered = kr_enter_named(standing->connection, context->number, session, standing->identity.uid);
    if (entered >= 0) context->lost_session = entered == 1;
    if (entered == 1) errno = EKEYREVOKED;
    return entered == 0 ? 0 : -1;
}

/* In the context that threads share, and where the first thread has one of its own in that too. */
static int enter_for_all(struct standing *standing, const struct kr_session *session) {
    struct thread_context *own = standings_own_context(standing);
    if (enter_made(standing, &standing->shared, session) < 0) return -1;
    return standings_is_own(standing, own) ? enter_made(standing, own, session) : 0;
}

/* Enters a session that was made just now, and tells what is executed of it. That is done first, as it may fail: by
 * then no other keyring must be this context's. */
static int export_and_enter(struct standing *standing, const struct kr_session *session) {
    const char *text = getenv(KR_SESSION_VARIABLE);
    char *before = text ? strdup(text) : NULL;
    bool is_kept = before || !text, is_exported = is_kept && kr_export_session(session) == 0;
    int entered = is_exported ? enter_for_all(standing, session) : -1;
    ERRNO_STAYS;
    bool is_restored = !is_exported || entered == 0 || (before && setenv(KR_SESSION_VARIABLE, before, 1) == 0);
    if (!is_restored) unsetenv(KR_SESSION_VARIABLE);
    free(before);
    return entered;
}

/* To the session of before, where there is one; errno stays. */
static void go_back(struct standing *standing) {
    struct kr_session before;
    ERRNO_STAYS;
    if (standings_session(&before) && before.serial != 0) enter_for_all(standing, &before);
}

/* The session of the process: a keeper makes and holds it, and then its contexts enter it. What the process executes
 * joins it by the environment's word. */
static int become_session(struct caller *caller, struct kr_session *session) {
    struct standing *standing = caller->standing;
    struct kr_file holder;
    enum kr_refusal why;
    if (kr_start_keeper(&holder, session, caller->connection->address.sun_path, false, caller->deadline, &why) < 0)
        return why == KR_REFUSED ? -1 : set_no_daemon();
    int entered = is_one_thread() ? export_and_enter(standing, session) : enter_for_all(standing, session);
    if (entered < 0) return go_back(standing), kr_close_file(&holder), -1;
    if (is_one_thread()) kr_export_holder(&holder, session);
    standings_set_session(session, &holder);
    standing->is_kept = true;
    return 0;
}

/* The session of this thread alone, which ends with it. It is tried in a context of its own first, as a refused one
 * must change nothing. */
static int join_for_thread(struct caller *caller, struct kr_session *session) {
    struct standing *standing = caller->standing;
    struct kr *connection = caller->connection;
    int64_t trial = make_context(standing, caller->context);
    if (trial < 0) return -1;
    session->serial = kr_begin_session(connection, (uint32_t)trial, session->name, standing->identity.uid);
    int entered = session->serial < 0 ? -1 : enter_made(standing, standings_own_context(standing), session);
    drop_context(connection, (uint32_t)trial);
    if (entered < 0) return -1;
    standings_set_own_session(session);
    return 0;
}

/* Nobody would write to the pipe of a program that has no supervisor. */
bool caller_has_pipes(void) { return false; }
long caller_watch(struct caller *caller, int32_t id, int descriptor, int watch) {
    (void)caller, (void)id, (void)descriptor, (void)watch;
    return fail_as(EOPNOTSUPP);
}

int32_t caller_join(struct caller *caller, const char *name) {
    struct kr_session *session = calloc(1, sizeof *session);
    if (!session) return -1;
    bool is_first = standings_is_first_thread(), is_named = (is_first && !name) || kr_name_session(session, name) == 0;
    bool is_joined =
        is_named && (is_first ? become_session(caller, session) : join_for_thread(caller, session)) == 0;
    if (is_joined) return session->serial;
    free(session);
    return -1;
}
