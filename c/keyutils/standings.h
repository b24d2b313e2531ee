/* standings.h: the identities of a process, each with a connection of its own, for which its threads take turns. */
#ifndef KEYRETAIN_STANDINGS_H
#define KEYRETAIN_STANDINGS_H

#include "common/caller.h"
#include "library/session.h"

/* Identities that are remembered: seteuid(2) and back must not lose the process keyring. */
enum { STANDINGS = 4 };

/* Which daemon it is. It is known by its process, and where that has none in this PID namespace by the socket's file,
 * which each makes anew. */
struct daemon {
    int64_t process, device, inode, made, and_nanoseconds;
};

/* A context of the connection of this age, no other's. All zero is none. One serves all threads of an identity: so
 * threads take no contexts by asking alone. A thread has one of its own from the first call on that names its thread
 * keyring or has it join a session by itself. So no thread possesses the thread keyring of another. */
struct thread_context {
    unsigned age;
    uint32_t number;
    bool lost_session; /* the session that it should have was revoked, or nobody holds it any more */
};

/* One identity. Who has it busy uses all of it; under the lock others see the first lines and `ended`. */
struct standing {
    struct kr_identity identity;
    bool is_taken, is_busy;
    unsigned long turn;    /* when it was last used */
    struct kr *connection; /* NULL before the first call, after fork(2), where it was lost, and where it was let go */
    struct thread_context shared;
    unsigned own; /* threads that have a context of their own on this connection */
    uint32_t ended[KR_CONTEXTS]; /* contexts of threads that have ended, which the daemon wasn't told yet */
    unsigned ended_count;
    struct kr_where where; /* of the daemon; an empty path where it is to be looked for */
    bool may_have_keyring; /* a process keyring, which ends with the connection */
    bool is_kept;          /* it has the session of the process, and with it the user keyring */
    int64_t answered;      /* when the last call ended */
    unsigned often;        /* how often of late: see caller.c */
    struct daemon daemon;  /* all zero before the first */
    bool is_own;           /* it is the user's own daemon */
    struct serials serials;
};

/* Takes the standing of this identity to oneself, in the order in which threads come, by the deadline. NULL with
 * ETIMEDOUT. */
struct standing *standings_take(const struct kr_identity *identity, int64_t deadline);

/* Gives it to the thread that came next. Its connection is ended where that may be, and nobody waits for it: the next
 * one is to the same place. So a crowd of threads makes one. */
void standings_give_back(struct standing *standing, bool may_let_go);

/* From here on another daemon answers a busy standing. A child of fork(2) finds all of its serials or none. -1:
 * ENOMEM. */
int standings_begin_serials(struct standing *standing);

/* The identity of this thread. */
const struct kr_identity *standings_identity(void);

/* Gives a busy standing a connection that isn't connected yet; NULL with errno. */
struct kr *standings_prepare(struct standing *standing);

/* Ends its connection. The next one is to the same place where the daemon isn't to be looked for again. */
void standings_drop(struct standing *standing, bool is_same_place);

/* ---- This thread ---- */

bool standings_is_first_thread(void);

/* Its own context in a standing, which ends with it once standings_has_own was told; and whether it has one there. */
struct thread_context *standings_own_context(const struct standing *standing);
bool standings_is_own(const struct standing *standing, const struct thread_context *own);
void standings_has_own(struct standing *standing);

/* The session that it has joined itself, where it isn't the first thread, and which is freed with it. */
struct kr_session *standings_own_session(void);
void standings_set_own_session(struct kr_session *session);

/* ---- The session of the process, which new contexts join ---- */

/* A copy, as another thread may change it. */
bool standings_session(struct kr_session *session);

/* Whether it lasts as long as this process, and not only as long as a login or as who began it; and no thread has a
 * context of its own in this standing. */
bool standings_may_let_go(const struct standing *standing);

/* Takes both over; those before end. */
void standings_set_session(struct kr_session *session, const struct kr_file *holder);

#endif
