/* caller.h: what a kernel knows about its caller, and a client must say: one connection for each identity that a
 * process takes, contexts for its threads, and a session that outlives the process. */
#ifndef KEYRETAIN_CALLER_H
#define KEYRETAIN_CALLER_H

#include "common.h"
#include "library/keyretain.h"

/* ---- rows.c: the calls, a row each: all that the supervisor and libkeyutils.so.1 want to know of one before it is
 * carried out; and who carries it out ---- */

/* The commands of keyctl(2), and behind them the two other system calls; and what of pipe2(2) and ioctl(2) is for pipes
 * of notes. */
enum { CALL_ADD_KEY = 256, CALL_REQUEST_KEY, CALL_PIPE2, CALL_SET_SIZE, CALL_SET_FILTER };

enum { KEY_ARGUMENTS = 5 };

/* What an argument of a call is. A payload is read and a room is written to; the next argument is its length. */
enum key_argument { KEY_NUMBER, KEY_ID, KEY_TYPE, KEY_TEXT, KEY_PAYLOAD, KEY_ROOM };

/* What a call does to keys. The third kind changes nothing where the id of its destination is 0. */
enum key_effect { KEY_CHANGES, KEY_READS, KEY_READS_WITHOUT_RING };

struct key_row {
    const char *name;
    int call;
    enum key_argument at[KEY_ARGUMENTS];
    enum key_effect effect;
    unsigned ring;       /* the argument that is the destination */
    unsigned long most;  /* of a payload: a longer one is EINVAL unread; 0 is a page */
    bool answers_serial;
    bool makes_special;  /* a thread or process keyring that is missing is made */
    bool wants_session;  /* whatever it names, as it searches the session */
    bool is_of_user;     /* the real uid and gid ask, whatever it names, as it makes a keyring of theirs */
    int refused;         /* this errno without any ask, or 0 */
};

/* All rows, with one of no name behind them. */
extern const struct key_row key_rows[];

/* That of a call which isn't there is refused. */
const struct key_row *key_row_of(int call);

/* Whether an argument that is an id is this one. */
bool key_row_names(const struct key_row *row, const unsigned long at[KEY_ARGUMENTS], int32_t id);

/* The argument of this kind, or -1. */
int key_row_argument(const struct key_row *row, enum key_argument kind);

/* Whether a payload is there, and no longer than may be: 0; else -1 with errno. */
long key_row_check_payload(const struct key_row *row, const unsigned long at[KEY_ARGUMENTS]);

/* Whether a call of these arguments changes nothing. */
bool key_row_only_reads(const struct key_row *row, const unsigned long at[KEY_ARGUMENTS]);

/* ---- syscalls.c: add_key(2), request_key(2) and keyctl(2) on keyretaind ---- */

/* The arguments of a system call as the kernel sees them. */
struct arguments {
    unsigned long at[KEY_ARGUMENTS];
};

/* Answers what the system call would, or -1 with errno. */
long key_call(int call, struct arguments arguments);
long key_call_of_row(const struct key_row *row, struct arguments arguments);

/* KEYCTL_SET_REQKEY_KEYRING of a thread that has chosen this: where keys go that an upcall makes. There are none, so
 * the choice is kept and has no effect. */
long key_set_reqkey(int *chosen, int choice);

/* ---- serials.c: which serials a daemon has told ----
 *
 * So those of one that is gone name no key of the next, which begins at the same number. */

/* Up to this one serials are told apart, which takes 16 MiB at most: a daemon may say any, and so take the memory of
 * whoever asks it. Of those above it an earlier daemon's stay stale. */
enum { SERIALS_TOLD_APART = 1 << 27 };

/* All zero at first. */
struct serials {
    int32_t highest; /* that this daemon told, or was asked about and knew */
    int32_t stale;   /* those up to this one are an earlier daemon's, but for what `again` has */
    uint8_t *again;  /* a bit for each stale one that this daemon has told since */
    int32_t plain[64]; /* keys that are no keyrings, each at its number modulo 64: a serial keeps its type */
};

/* This daemon has told a serial. What isn't above 0 is no serial. */
void serials_add(struct serials *serials, int32_t serial);

/* Says of a key that it is no keyring; and whether that was said, of whatever else not. */
void serials_add_plain(struct serials *serials, int32_t serial);
bool serials_is_plain(const struct serials *serials, int32_t serial);

/* Whether a serial is an earlier daemon's alone. */
bool serials_is_stale(const struct serials *serials, int32_t serial);

/* From here on another daemon answers. To others the one before has told serials up to this one. -1 with ENOMEM. */
int serials_begin_anew(struct serials *serials, int32_t told);

/* Forgets all. */
void serials_clear(struct serials *serials);

/* ---- Who asks: caller.c in the library, tracees.c in the supervisor ---- */

struct standing;

/* Who asks: from caller_enter to caller_leave. */
struct caller {
    bool names_thread; /* said before caller_enter: the call names the thread keyring */
    bool joins;        /* the same: it joins a session */
    bool may_hold;     /* said before caller_leave: there may be a process keyring now */
    bool may_hold_thread; /* the same of the thread keyring */
    struct kr *connection;
    uint32_t context;
    bool lost_session; /* the session that this thread should have was revoked, or nobody holds it any more */
    struct standing *standing; /* the identity's, which this thread alone uses until it leaves */
    struct serials *serials; /* that daemons have told */
    int64_t begun, deadline;
    int cancelling;    /* what pthread_setcancelstate(3) goes back to */
};

/* Finds the context of this thread under its identity, waits for its turn, and lets no one cancel it. False with errno
 * where there is none: ENOSYS where no daemon is there, as a kernel without keys says; EACCES where it may not be
 * asked; EDQUOT for the 65th context of an identity, or where keyretain-guard(8) has no place for its user; ETIMEDOUT
 * where the daemon has no lane free; ECONNRESET where it ends the connection at once. Then caller_leave must not be
 * called. */
bool caller_enter(struct caller *caller);

/* Ends the turn, with what the call came to: -1 with errno for an error. */
void caller_leave(struct caller *caller, long result);

/* Joins the session of this name, or one of its own for NULL. From the first thread it is joined for all that have not
 * joined one by themselves and for what the process forks from then on, and, where that is its one thread, for what it
 * executes; from another for that thread. Answers the serial of its keyring, or -1 with errno. */
int32_t caller_join(struct caller *caller, const char *name);

/* KEYCTL_WATCH_KEY with a pipe of notes; and whether a program can have one. */
long caller_watch(struct caller *caller, int32_t id, int descriptor, int watch);
bool caller_has_pipes(void);

/* Calls of this thread end by this moment of kr_now at the latest. Answers the moment before. In a library alone. */
int64_t caller_limit(int64_t until);

#endif
