/* sessions.h: the sessions of what a supervisor serves.
 *
 * Which session a new process has is the one thing that fork(2) hands down and nobody tells. So what has joined a
 * session bears its tag: 61 random bits in the soft limit RLIMIT_LOCKS, which no kernel since 2.4.25 heeds. fork(2)
 * copies it, execve(2) keeps it, and prlimit(2) reads it in processes of one's uid. But limits of proc(5) tell it to
 * everybody, and any process may set it: so a tag says which session of its user is meant, and gives no other. */
#ifndef KEYRETAIN_SESSIONS_H
#define KEYRETAIN_SESSIONS_H

#include "common/caller.h"
#include "library/session.h"
#include "krs_admission.h"

/* ---- contexts.c: the connections on which a supervisor asks for all that it serves, and the contexts in them ----
 *
 * A daemon gives a connection 64 contexts: where these are not enough, a further one is opened. It ends a connection
 * after so many reads: before that another takes its place, in which new contexts are made; the first stays for those
 * that have something to lose. */

/* Its connection's age and its number there. All zero is none. One that lasts is an identity's or a session's, and
 * keeps keys that nothing else keeps. */
struct context {
    unsigned age;
    uint32_t number;
    bool lasts;
};

/* Connects to the daemon at a path, NULL for where kr_default_path says. `make_room` is asked to end some context of
 * the connection of this age that nothing is lost with, when it has as many as it may, or one that lasts, of age 0;
 * `give_up_keys` to end one that lasts, where there is no further connection. False where none may be ended. -1 with
 * errno, ENOSYS where no daemon is there. What shows that two connections are to one daemon is this identity's. */
int contexts_begin(const char *path, const struct kr_identity *identity, bool (*make_room)(unsigned age),
                   bool (*give_up_keys)(void));

/* Before a call: opens a connection where the daemon has ended all, with which all contexts have gone. From now on asks
 * end by the call's deadline. */
int contexts_begin_call(void);

/* The same for what is done between calls, which opens none. */
void contexts_set_deadline(void);

/* Whether there are more connections with contexts than identities take that no process has. */
bool contexts_are_many(void);

/* Closes connections without a context, but one. */
void contexts_tidy(void);

/* Whether there is a connection. */
bool contexts_have_daemon(void);

/* How often a connection was made where there was no other: to the daemon of before, or to another. */
unsigned contexts_beginnings(void);

/* Opens another connection in the place of one whose time it is; that one is left for contexts that were made on it,
 * until the other is worn too. False where there is none. */
bool contexts_renew(void);

/* A connection to the same daemon, for other asks than those in contexts of here; NULL where none is to be had. */
struct kr *contexts_open_apart(void);

/* Whether it is on a connection in whose place there is another. */
bool context_is_old(const struct context *context);

/* How many contexts its connection may have besides those that it has. */
unsigned context_left(const struct context *context);

/* The connection of a context, NULL where it has gone with its connection, or is none. */
struct kr *context_connection(const struct context *context);

/* Each makes a context, ending others where there are too many: -1 with errno, EDQUOT where none may be ended and no
 * further connection is to be had. The first two last. */
int context_hello(struct context *made, const struct kr_identity *identity);
int context_hold(struct context *made, const struct context *from);
int context_fork(struct context *made, const struct context *from);
int context_thread(struct context *made, const struct context *from);

/* Ends one, if it is one; errno stays. One that the daemon doesn't know is only forgotten. */
void context_end(struct context *context);
void context_forget(struct context *context);

/* ---- users.c: the identities of what a supervisor serves ----
 *
 * Each that asks has a context, from which others are forked, and which keeps its user keyrings.
 *
 * The context of an identity that nothing uses any more is given up, unless its user keyrings would lose keys with it.
 * It is given up then too, where there are many connections, or no further one is to be had, and no process has its
 * uid. */

/* What daemons have told a uid: its identities have it in common. */
struct told {
    struct serials serials;
    unsigned before; /* how many daemons there were before the one that told last */
    unsigned uses;
};

struct user {
    struct kr_identity identity;
    struct context context;
    unsigned uses;   /* how many standings and sessions have it */
    unsigned absent; /* how many sweeps have found none */
    bool has_keys;   /* when it was last looked at */
    bool is_away;    /* no process had its uid then */
    struct told *told;
    struct user *next;
};

/* The identity with a context: NULL with errno. */
struct user *users_find(const struct kr_identity *identity);

struct user *user_use(struct user *user);
void user_let_go(struct user *user);

/* Gives up identities that nothing uses, in two sweeps one after the other. */
bool users_want_sweep(void);
void users_sweep(void);

/* Gives up one that loses nothing, on the connection of this age, or of any for 0; or one whose uid no process has, and
 * with it keys. False where there is none. */
bool users_make_room(unsigned age);
bool users_give_up_keys(void);

/* Makes contexts anew that are on an old connection. */
void users_renew(void);

/* ---- sessions.c ---- */

/* `holder` is a context in it, from which others are forked; the session is lost where that is gone. */
struct session {
    struct user *user;
    struct context holder;
    int32_t serial;
    uint64_t tag;
    struct admission_process begun; /* who did, when it did */
    const void *beginner;           /* its entry, as long as that holds the session; NULL is none */
    unsigned uses;                  /* how many entries of threads, and contexts of these, have it */
    unsigned absent;                /* how many sweeps have found no process with its tag, since none uses it */
    struct session *next;
    char name[KR_SESSION_NAME_ROOM];
};

/* The first session, of this identity, begun as this process; it never ends. NULL makes a name. In a container the
 * identity's user keyring isn't linked to it. -1 with errno: EACCES where a keyring of that name is another user's or
 * open to others. */
int sessions_begin(const struct kr_identity *identity, const struct admission_process *begun, const char *name,
                   bool is_container);

/* The first session. */
struct session *sessions_first(void);

bool session_is_lost(const struct session *session);

/* How many a uid has on the connection of this age. */
unsigned sessions_count(uint32_t uid, unsigned age);

/* One entry more has it, and one less. NULL is none. */
struct session *session_use(struct session *session);
void session_let_go(struct session *session);

/* Has the context of this identity join the session of this name, or one of its own for NULL: NULL with errno, EACCES
 * where the keyring of that name is another user's. It may have left its session then, for none. */
struct session *session_join(struct context *context, struct user *user, const char *name,
                             const struct admission_process *begun, bool *has_left);

/* Makes a context of this identity in a session, in none for NULL: 0, with whether the session is lost to it; -1 with
 * errno. What is lost has an empty keyring as its session. */
int session_enter(struct context *made, struct user *user, const struct session *session, bool *is_lost);

/* Has a context of this identity join a session that another identity of the same uid, or another connection, has:
 * false where the session is lost to it. Its user, and no other, may find it by its name meanwhile. */
bool session_enter_by_name(struct context *context, const struct user *user, const struct session *session);

/* Gives a context an empty keyring as its session. -1 with errno. */
int session_leave(const struct context *context);

/* The session of a tag, or NULL. */
struct session *session_of_tag(uint64_t soft);

/* Puts the tag of a session; where a hard limit doesn't allow it, none. The kernel may allow neither. */
void session_put_tag(pid_t process, const struct session *session);

/* Ends the sessions that no entry uses and no process keeps by its tag, in two sweeps one after the other; `keeps`
 * tells of a process that has the tag of one. A sweep looks at a part of the processes: false where it is at its end,
 * and the next begins anew. */
bool sessions_want_sweep(void);
bool sessions_sweep(bool (*keeps)(pid_t process, const struct session *session));

/* An entry is gone. */
void sessions_forget(const void *beginner);

/* Makes holders anew that are on an old connection. */
void sessions_renew(void);

#endif
