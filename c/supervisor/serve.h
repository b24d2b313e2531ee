/* serve.h: a supervisor: answers add_key(2), request_key(2) and keyctl(2) of processes under the filter of
 * filter.c from what keyretaind answers, and makes their pipes of notes (notes.h).
 *
 * It is one process with one thread, which serves until nobody is left who has the filter. It reads and writes the
 * memory of what it serves, and tells the daemon who asks: so nobody else may look into it. */
#ifndef KEYRETAIN_SERVE_H
#define KEYRETAIN_SERVE_H

#include "common/caller.h"
#include "entries.h"

/* ---- tracees.c: the threads whose calls are served, one at a time: who each is, and in which context it asks. So they
 * are what caller.h wants of a supervisor, for syscalls.c ---- */

struct tracees_settings {
    const char *socket;          /* the daemon's; NULL for where kr_default_path says */
    const char *name;            /* of the first session; NULL makes one */
    struct kr_identity identity; /* whose the first session is, but for a container's */
    bool is_container;           /* ids are those of its user namespace, and the user keyring isn't linked to the
                                    first session */
    bool has_pipes;              /* all calls that filter.c names are handed over, and not the key calls alone */
    pid_t first;                 /* the container's first process, as its runtime says, or 0 */
    pid_t child;                 /* what the supervisor has started, or 0 */
};

/* Connects to the daemon and begins the first session. Ends of processes and threads are told by this epoll(7)
 * descriptor, with what entries_ended takes. -1 with errno. */
int tracees_begin(const struct tracees_settings *settings, int epoll);

/* A thread that has sent a notification: what nothing changes while that waits. False where it has gone. */
struct sender {
    pid_t thread;
    bool is_elsewhere; /* in another user namespace than the one that is served */
    struct proc_status status;
};
bool sender_read(struct sender *sender, pid_t thread);

/* The thread of a notification, before its call is carried out: false where it has gone, or may not be looked at.
 * `is_valid` tells whether the notification still waits. */
bool tracees_enter(const struct sender *sender, const struct key_row *row, const unsigned long given[KEY_ARGUMENTS],
                   bool (*is_valid)(void));
void tracees_leave(void);

/* Of the thread that has entered: as who it asks, what it has, and its status. */
struct entered {
    struct task *task;
    struct kr_identity identity;
    const struct sender *sender;
    struct asker asker;
    bool (*is_valid)(void);
};
const struct entered *tracees_entered(void);

/* KEYCTL_SESSION_TO_PARENT: the answer, or -1 with errno. */
long tracees_session_to_parent(void);

/* Whether to sweep a second later: sees which processes have executed something else, which threads have ended where
 * nothing else tells, and which sessions and identities nobody has any more. It is done a part at a time, between
 * calls: false where it is at its end. */
bool tracees_want_sweep(void);
bool tracees_sweep(void);

/* How many sweeps have ended; and whether those to come may end a session that nobody has, so that there is room for
 * what was refused with EDQUOT: so many, one of which may have begun before. */
enum { SWEEPS_FOR_ROOM = 3 };
unsigned tracees_sweeps(void);
bool tracees_may_have_room(void);

/* Gives up a context of the connection of this age that nothing is lost with, or for 0 a lasting one. False where there
 * is none. */
bool tracees_make_room(unsigned age);

/* ---- serve.c ---- */

struct serve_settings {
    struct tracees_settings tracees;
    int more; /* a socket over which further listeners come, by serve_send_listener; or -1 */
    void (*is_ready)(void);        /* the daemon is there, and calls are answered from now on; or NULL */
    void (*has_ended)(int status); /* the child, with its status of waitpid(2); or NULL */
};

enum serve_result { SERVE_DONE, SERVE_REFUSED, SERVE_NO_DAEMON };

/* Keeps all others from this process: it can't be dumped or traced, and leaves no core. Raises the limit of
 * descriptors, of which a served process takes two and a thread one, and ignores SIGPIPE. To be called before it has
 * a listener, by a process that executes nothing else. -1 with errno. */
int serve_protect(void);

/* Serves the notifications of a listener, which it closes at the end, and those that come over `more`. Reaps all
 * children. Where it can't begin errno says why: SERVE_REFUSED by the daemon, or SERVE_NO_DAEMON. */
enum serve_result serve(int listener, const struct serve_settings *settings);

/* ---- calls.c: a call of another process, on copies of what its pointers mean ---- */

/* A type has fewer than 32 bytes and a text fewer than 4,096, with the null byte; an ask has no payload above 65,535
 * bytes; and no keyring reads as more than 65,536 links. */
enum { TEXTS = 3, TYPE_MAX = 32, TEXT_MAX = 4096, PAYLOAD_MAX = 65537, ROOM_MAX = 262160 };

/* Of one call. A child of fork(2) has the same one, and may fill it. */
struct copies {
    const struct key_row *row;
    unsigned long given[KEY_ARGUMENTS];
    struct arguments arguments; /* the same, with copies in the place of what pointers meant */
    int error;                  /* that the call has before or after it is carried out, or 0 */
    unsigned long to;           /* where the caller has room for the answer, or 0 */
    size_t length, put_length;
    bool puts;                  /* so many bytes are to be put there */
    char texts[TEXTS][TEXT_MAX + 1];
    _Alignas(8) unsigned char payload[PAYLOAD_MAX];
    _Alignas(8) unsigned char room[ROOM_MAX];
};

/* In no core file. NULL with errno. */
struct copies *copies_make(void);
void copies_free(struct copies *copies);

/* For a call: whether the caller's memory is wanted. If so, copies_take opens it and copies, before tracees_enter; and
 * copies_put puts the answer there where the call has one to put. Both may wait for as long as the caller likes, and
 * say what failed by `error`. */
bool copies_begin(struct copies *copies, const struct key_row *row, const unsigned long given[KEY_ARGUMENTS]);
void copies_take(struct copies *copies, pid_t thread);
void copies_put(struct copies *copies);

/* Wipes what was copied. */
void copies_end(struct copies *copies);

/* Carries out the call of a thread that has entered (tracees_enter), and answers it, or -1 with errno. `sum` is that
 * of struct replay, or 0 for a call that changes nothing. */
long call_carry_out(struct copies *copies, const struct seccomp_data *data, uint64_t *sum);

/* ---- worker.c: a process that reads and writes callers' memory, as that may not answer ----
 *
 * One for each user who asks and isn't the supervisor's own. It has the room for copies, one end of a socket, and the
 * memory of the caller whose call it is about; and it is told nothing but which thread that is. */

struct worker {
    pid_t process;
    int socket;
    struct copies *copies;
};

/* False with errno where none can be started. */
bool worker_start(struct worker *worker);

/* Has it do copies_take of a thread, or copies_put for 0. It tells by its socket that it is done: worker_has_done reads
 * that. False where it has ended. */
bool worker_tell(const struct worker *worker, pid_t thread);
bool worker_has_done(const struct worker *worker);

/* Ends it, whatever it waits for. It is to be reaped. */
void worker_end(struct worker *worker);

/* ---- turns.c: whose call is next ----
 *
 * All notifications that wait are received, and one of each user is served in turn: so one who has thousands of
 * processes that ask is one in the line. A user is a real uid, or whoever has made the user namespace of a thread. */

/* Tells of workers by this epoll(7) descriptor, with what turns_have knows. -1 with errno. */
int turns_begin(int epoll);

/* Receives one that waits; false for none. */
bool turns_take(int listener);

/* Serves one of each user; and the moment of kr_now from which on it has something to do. */
void turns_serve(void);
int64_t turns_next(void);

/* Whether some call is refused unless a sweep makes room for it. */
bool turns_want_sweep(void);

/* A worker tells something; it was reaped. */
bool turns_have(const void *source);
void turns_go_on(void *source);
void turns_reaped(pid_t process);

/* A listener has gone. */
void turns_forget(int listener);

/* Gives the thread that has entered a copy of a descriptor, and answers its number there; -1 with errno. */
int turns_give(int descriptor, bool closes);

/* ---- Listeners ---- */

/* Sends a descriptor over a socket; -1 with errno. A server answers a byte to each that it has taken: one that has
 * ended meanwhile answers none, and whoever has sent it serves it otherwise. */
int serve_send_listener(int socket, int listener);

/* -1 with errno, ECONNRESET at the end. */
int serve_receive_listener(int socket);

/* ---- filter.c: the seccomp filter that hands a process's three key calls to a supervisor, and what of pipe2(2) and
 * ioctl(2) is for pipes of notes ---- */

/* Installs it for this process, what it forks and what it executes. Answers the listener, closed by execve(2), or -1
 * with errno: EBUSY where these processes have another listener, EPERM or ENOSYS where filters are refused. Without
 * CAP_SYS_ADMIN the process has no_new_privs from then on. */
int filter_install(void);

/* Which call a notification is of: a command of keyctl(2), or one of those behind them in caller.h; -1 for another. The
 * arguments are put in the order of rows.c, each as wide as in the caller's ABI. */
int filter_decode(const struct seccomp_data *data, unsigned long at[5]);

#endif
