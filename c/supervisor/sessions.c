/* sessions.c: the sessions of what a supervisor serves. */
#include "entries.h"

#include <sys/random.h>

enum { MASK_WITHOUT_NAME = 0x3f030000, ABSENT_SWEEPS = 2, OF_SWEEP = 64 };

static struct {
    struct session *sessions, *first;
} all;

struct session *sessions_first(void) { return all.first; }
bool session_is_lost(const struct session *session) { return !context_connection(&session->holder); }

unsigned sessions_count(uint32_t uid, unsigned age) {
    unsigned count = 0;
    for (const struct session *session = all.sessions; session; session = session->next)
        count += session->user->identity.uid == uid && session->holder.age == age;
    return count;
}

struct session *session_use(struct session *session) {
    if (session) session->uses++;
    return session;
}

/* What has its tag may not have asked yet: the next sweeps look for it. */
void session_let_go(struct session *session) {
    if (session && --session->uses == 0) session->absent = 0;
}

void sessions_forget(const void *beginner) {
    for (struct session *session = all.sessions; session; session = session->next)
        if (session->beginner == beginner) session->beginner = NULL;
}

/* ---- A new one ---- */

/* What this context has joined, with a holder of its own. */
static struct session *add_session(const struct context *context, struct user *user, int32_t serial, const char *name,
                                   const struct admission_process *begun) {
    uint64_t random;
    struct session *session = calloc(1, sizeof *session);
    if (!session || getrandom(&random, sizeof random, 0) != (ssize_t)sizeof random) return forgotten(session);
    session->serial = serial;
    session->begun = *begun;
    session->tag = ADMISSION_TAG_BASE + random % ADMISSION_TAG_COUNT;
    snprintf(session->name, sizeof session->name, "%s", name);
    if (context_hold(&session->holder, context) < 0) return forgotten(session);
    session->user = user_use(user);
    session->next = all.sessions;
    return all.sessions = session;
}

/* What a keyring of this uid has; false for what is another's. */
static bool read_own(const struct context *context, int32_t serial, uint32_t uid, struct kr_attributes *attributes) {
    struct kr *connection = context_connection(context);
    return connection && kr_read_attributes(connection, context->number, serial, attributes) == 0 &&
           attributes->owner == uid;
}

int session_leave(const struct context *context) {
    struct kr *connection = context_connection(context);
    return connection && kr_join(connection, context->number, NULL) > 0 ? 0 : -1;
}

/* ---- Joining, and entering ---- */

static int set_mask(const struct session *session, unsigned mask) {
    struct kr *connection = context_connection(&session->holder);
    return connection ? kr_setperm(connection, session->holder.number, session->serial, mask) : -1;
}

/* The user of the session may search it by its name for the time of one ask. What was found must be that session; else
 * the context leaves what it has joined, or may join yet: asks that weren't answered in time are carried out, in their
 * order. */
bool session_enter_by_name(struct context *context, const struct user *user, const struct session *session) {
    struct kr *connection = context_connection(context);
    struct kr_attributes attributes;
    if (!connection || !*session->name || user->identity.uid != session->user->identity.uid ||
        !read_own(&session->holder, session->serial, user->identity.uid, &attributes))
        return false;
    bool may_search = attributes.mask & KR_USER_MAY_SEARCH;
    bool is_open = may_search || set_mask(session, attributes.mask | KR_USER_MAY_SEARCH) == 0;
    int32_t joined = is_open ? kr_join(connection, context->number, session->name) : session->serial;
    int error = is_open && joined >= 0 ? EACCES : errno;
    if (!may_search) set_mask(session, attributes.mask);
    bool is_it = joined == session->serial &&
                 (!is_open || read_own(context, joined, user->identity.uid, &attributes));
    if (!is_it && session_leave(context) < 0) context_end(context);
    errno = error;
    return is_open && is_it;
}

/* What a context joins by a name, where that is this user's; NULL with errno. */
static struct session *join(const struct context *context, struct user *user, const char *name,
                            const struct admission_process *begun) {
    struct kr_attributes attributes;
    struct kr *connection = context_connection(context);
    int32_t serial = connection ? kr_join(connection, context->number, name) : fail_as(ECONNRESET);
    if (serial < 0) return NULL;
    struct session *session = FIND(all.sessions, at, at->serial == serial && !session_is_lost(at));
    bool is_own = read_own(context, serial, user->identity.uid, &attributes) &&
                  (!session || session->user->identity.uid == user->identity.uid);
    if (is_own) return session ? session : add_session(context, user, serial, name, begun);
    errno = context_connection(context) ? EACCES : ECONNRESET;
    return NULL;
}

/* One for this context alone, which has no name. */
static struct session *begin_alone(struct context *context, struct user *user, const struct admission_process *begun,
                                   bool *has_left) {
    struct kr *connection = context_connection(context);
    int32_t serial = connection ? kr_join(connection, context->number, NULL) : fail_as(ECONNRESET);
    struct session *session = serial < 0 ? NULL : add_session(context, user, serial, "", begun);
    *has_left = !session && (serial >= 0 || errno == ETIMEDOUT);
    return session;
}

/* One without a name gets one that nobody can guess, by which other identities of its uid come in, and is its user's to
 * link only from within, as the kernel's is. It is joined in a trial first, so that a refusal changes nothing: another
 * user may have made a keyring of the name, and opened it. */
struct session *session_join(struct context *context, struct user *user, const char *name,
                             const struct admission_process *begun, bool *has_left) {
    struct kr_session named;
    struct context trial;
    if (krs_admission_c_begins_alone(begun, name != NULL)) return begin_alone(context, user, begun, has_left);
    if (kr_name_session(&named, name) < 0 || context_fork(&trial, &user->context) < 0) return NULL;
    struct session *session = join(&trial, user, named.name, begun);
    if (session && !name && set_mask(session, MASK_WITHOUT_NAME) < 0) session = NULL;
    *has_left = session && !session_enter_by_name(context, user, session);
    context_end(&trial);
    return *has_left ? NULL : session;
}

int session_enter(struct context *made, struct user *user, const struct session *session, bool *is_lost) {
    if (session && session->user == user) return context_fork(made, &session->holder);
    if (context_fork(made, &user->context) < 0) return -1;
    if (session && !*is_lost) *is_lost = !session_enter_by_name(made, user, session);
    if (!*is_lost || session_leave(made) == 0) return 0;
    context_end(made);
    return -1;
}

/* ---- Tags ---- */

struct session *session_of_tag(uint64_t soft) { return FIND(all.sessions, session, session->tag == soft); }

/* The tag of the session before would say what isn't so any more. */
void session_put_tag(pid_t process, const struct session *session) {
    struct rlimit limit;
    if (prlimit(process, RLIMIT_LOCKS, NULL, &limit) < 0) return;
    limit.rlim_cur = session->tag <= limit.rlim_max ? session->tag : 0;
    prlimit(process, RLIMIT_LOCKS, &limit, NULL);
}

/* ---- The ends of sessions ---- */

bool sessions_want_sweep(void) { return FIND(all.sessions, session, session->uses == 0) != NULL; }

/* False where all have been looked at. */
static bool see_tags(DIR *processes, bool (*keeps)(pid_t, const struct session *)) {
    uint64_t soft;
    for (int i = 0; i < OF_SWEEP; i++) {
        pid_t process = proc_next(processes);
        if (process <= 0) return false;
        struct session *session = proc_read_locks(process, &soft) ? session_of_tag(soft) : NULL;
        if (session && session->uses == 0 && keeps(process, session)) session->absent = 0;
    }
    return true;
}

/* A process that is forked by one which ends may be missed once. */
bool sessions_sweep(bool (*keeps)(pid_t, const struct session *)) {
    static DIR *processes;
    if (!processes) {
        processes = sessions_want_sweep() ? proc_begin(0) : NULL;
        if (!processes) return false;
        for (struct session *session = all.sessions; session; session = session->next) session->absent++;
    }
    if (see_tags(processes, keeps)) return true;
    closedir(processes);
    processes = NULL;
    for (struct session *session = all.sessions, *next; session; session = next) {
        next = session->next;
        if (session->uses > 0 || session->absent < ABSENT_SWEEPS) continue;
        TAKE_OUT(all.sessions, session);
        context_end(&session->holder);
        user_let_go(session->user);
        free(session);
    }
    return false;
}

/* ---- Another connection ---- */

/* The old holder stays where the new connection can't have one: it ends with the old connection. */
static void move_session(struct session *session) {
    struct context moved = { 0 };
    if (!context_is_old(&session->holder) || context_is_old(&session->user->context)) return;
    if (context_hold(&moved, &session->user->context) < 0) return;
    if (session_enter_by_name(&moved, session->user, session)) {
        context_end(&session->holder);
        session->holder = moved;
    } else {
        context_end(&moved);
    }
}

void sessions_renew(void) {
    for (struct session *session = all.sessions, *next; session; session = next) {
        session_use(session); /* what is given up to make room isn't this one */
        move_session(session);
        next = session->next;
        session_let_go(session);
    }
}

/* ---- Beginning ---- */

/* As keyretain-session(1) begins a session: later processes of the uid find it by the name. */
int sessions_begin(const struct kr_identity *identity, const struct admission_process *begun, const char *name,
                   bool is_container) {
    struct kr_session named;
    struct context context;
    struct user *user = users_find(identity);
    if (!user || kr_name_session(&named, name) < 0 || context_fork(&context, &user->context) < 0) return -1;
    struct kr *connection = context_connection(&context);
    bool is_alone = !is_container && krs_admission_c_begins_alone(begun, false);
    if (is_alone) *named.name = '\0';
    int32_t serial = is_alone ? kr_join(connection, context.number, NULL)
                              : kr_begin_session(connection, context.number, named.name, identity->uid);
    bool is_linked = is_container || (serial > 0 && kr_link_user_keyring(connection, context.number) == 0);
    if (serial > 0 && is_linked) all.first = session_use(add_session(&context, user, serial, named.name, begun));
    context_end(&context);
    return all.first ? 0 : -1;
}
