/* entries.h: what a supervisor remembers of the processes and threads that have asked. Each process has an entry, and
 * in it each thread. An entry takes two descriptors of a process, and one of a thread that isn't its first. */
#ifndef KEYRETAIN_ENTRIES_H
#define KEYRETAIN_ENTRIES_H

#include "proc.h"
#include "sessions.h"

#include <linux/seccomp.h>
#include <sys/queue.h>

/* ---- calls.c: the answer to a call that a signal has ended while it was carried out ----
 *
 * Without WAIT_KILLABLE_RECV, which runtimes of containers may not set, a signal ends a call that is under way: the
 * answer finds nobody, and the call may come again, from the kernel (SA_RESTART) or from the program (EINTR). A link
 * that is taken away twice would be ENOENT. So the answer is kept for a moment, and given where the next call of the
 * same thread is the same one. */

/* A thread's, at first all zero. */
struct replay {
    struct seccomp_data call;
    struct admission_process caller; /* all its bytes count */
    uint64_t sum; /* of the bytes that the call's pointers meant */
    int64_t until;
    long result;
    int error;
};

/* The sum of some bytes more. */
uint64_t replay_sum(uint64_t sum, const void *bytes, size_t length);

/* Whether the call is that of the answer that is kept, and of who has the same ids, which is then given it. Either way
 * none is kept afterwards. */
bool replay_take(struct replay *replay, const struct seccomp_data *call, const struct admission_process *caller,
                 uint64_t sum, long *result);

/* Keeps the answer `result`, with this errno. */
void replay_keep(struct replay *replay, const struct seccomp_data *call, const struct admission_process *caller,
                 uint64_t sum, long result, int error);

/* ---- entries.c ---- */

enum { STANDINGS = 4 };

/* A thread's context under an identity, in a session, in none with NULL, or lost. */
struct standing {
    struct user *user;
    struct session *session;
    struct context context;
    bool is_lost;                      /* the session */
    bool has_joined;                   /* it is the one in which the thread itself has joined that session */
    bool may_have_thread_keyring, may_have_process_keyring; /* by what the daemon has answered */
    struct admission_process made_for; /* what was judged then; in another user namespace nobody has executed it */
};

enum kind { PROCESS, TASK };

struct task {
    enum kind kind;
    pid_t thread;
    int descriptor; /* of the thread; -1 for the first, which lasts as long as its process */
    int reqkey;
    struct session *session; /* that it holds; NULL is none */
    bool has_joined;         /* it itself has joined that, since it executed something */
    struct standing standings[STANDINGS];
    unsigned count;
    struct replay replay;
    struct process *process;
    struct task *next;
};

struct process {
    enum kind kind;
    pid_t id;
    int descriptor;
    int memory;         /* what it had when it last asked, by which it is seen that it executes something else; or -1 */
    bool is_fork;       /* it had executed nothing when it first asked: its memory may be another's, by vfork(2) */
    uint64_t image;     /* what it executed when it last asked: others may have its memory too */
    bool has_threads;   /* some call has named a thread keyring: each thread has a context of its own */
    bool may_have_keyrings; /* some call has named a thread or process keyring */
    struct task *tasks;
    struct task *first; /* thread: the last of them */
    unsigned standings; /* of its threads */
    struct process *next;
    TAILQ_ENTRY(process) order, order_of_standings, order_of_sweep;
};

/* Ends of processes and threads are told by this epoll(7) descriptor, with what entries_ended takes. */
void entries_begin(int epoll);
void entries_ended(void *ended);

/* Each owns the descriptor, and is NULL where it can't be made. */
struct process *add_process(pid_t id, int descriptor);
struct task *add_task(struct process *process, pid_t thread, int descriptor);

/* The entry of a living process; of a living thread. */
struct process *find_process(pid_t id);
struct task *find_task(const struct process *process, pid_t thread);

/* The nearest above a process that has an entry, or NULL, and whether all up to that one or the first could be looked
 * at. It may not be by its fork that a process is there: what ends leaves its children to another, and clone(2) gives
 * some to the caller's parent. */
struct process *find_above(pid_t id, bool *is_known);

/* It asks: it is the last that is given up. */
void process_asks(struct process *process);

/* It may have keyrings from now on that end with what it executes, or a thread whose end nothing else tells. */
void sweep_from_now_on(struct process *process);

/* Whether it has executed something else since it asked last, this being its image; and what is so then: the thread and
 * process keyrings are gone, and the threads but one. */
bool has_executed(const struct process *process, uint64_t image);
void note_executed(struct process *process);

/* Changes the session that a thread holds. The first thread's is what its process's children have. */
void set_session(struct task *task, struct session *session);

void end_task(struct task *task);
void end_process(struct process *process);

/* The process that asked longest ago; and the next. */
struct process *entries_oldest(void);
struct process *entries_next(const struct process *process);

/* Whether descriptors run short. */
bool entries_are_many(void);

/* A sweep looks at a part of them, and answers how many are left of this many. */
unsigned entries_to_sweep(void);
unsigned entries_sweep(unsigned left);

/* The first standing of a thread of which this holds, or NULL. */
#define FIND_STANDING(task, at, holds)                                                      \
    ({                                                                                      \
        struct standing *at = (task)->standings, *end_ = (task)->standings + (task)->count; \
        while (at < end_ && !(holds)) at++;                                                 \
        at < end_ ? at : NULL;                                                              \
    })

/* ---- task_contexts.c: the contexts of threads ----
 *
 * A thread has one for each identity in which it has asked. It is given up for another's where it has no thread and no
 * process keyring, and made anew at the thread's next ask. */

/* In which session a thread asks: in this one, which it has joined itself or not, in none, or in a lost one. */
struct admitted {
    struct session *session;
    bool is_lost, is_joined;
};

/* Who asks: what is judged of the process, and whether it revokes the session that it has joined itself. */
struct asker {
    struct admission_process process;
    bool revokes;
};

/* The one under this identity that was made for this process as it is now, or NULL. Its process is the last whose
 * contexts are given up. */
struct standing *find_standing(struct task *task, const struct user *user, const struct asker *asker);

/* The one under this identity in this session, which is made where there is none. NULL with errno. */
struct standing *have_standing(struct task *task, struct user *user, struct admitted admitted,
                               const struct asker *asker);

/* After a thread has come into a session in which its other contexts aren't: they are given up, and those that have
 * something to lose are brought there where they are of the session's user, or lose their session. */
void bring_standings(struct task *task, struct session *session);

void standing_set_session(struct standing *standing, struct session *session);

/* After a call that named such a keyring: there may be one now, which would end with it. All threads of a process have
 * the process keyring. */
void standing_may_have(struct task *task, struct standing *standing, bool thread_keyring, bool process_keyring);

/* Whether a user may have one more context. Who has most of them on a connection leaves the last ones to others: false
 * with EDQUOT where nothing can be given up. */
bool standings_may_have_more(const struct user *user);

void end_standings(struct task *task);

/* Ends contexts that nothing is lost with: of the connection of this age, or lasting ones for 0. `asking` is the thread
 * whose call is served, or NULL. False where there is none. */
bool standings_make_room(unsigned age, const struct task *asking);

/* Where descriptors run short: gives up threads and processes that have nothing to lose, and are known again as
 * `may_be_forgotten` says. */
void standings_make_descriptors(const struct task *asking, bool (*may_be_forgotten)(const struct process *));

/* A process that has nothing to lose on an old connection gets contexts on another one. */
void standings_leave_old_connections(void);

/* ---- admission.c: in which session a process asks. It asks the kernel for the facts, by which krs_admission.h judges
 * ---- */

/* Begins: what ids are served. In a container the one whose first process this is, or 0 where it isn't known. */
void admission_begin(bool is_container, pid_t first);

/* Who runs a process or thread; and who is all of one uid, as who begins the first session: outside of containers this
 * program, which may run set-uid. All bytes are set, by which two are compared. */
void admission_read(struct admission_process *process, pid_t id, const struct proc_status *status);
void admission_put(struct admission_process *process, const struct proc_status *status,
                   const struct proc_vector *vector, bool is_elsewhere);
void admission_set(struct admission_process *process, uint32_t uid);

/* As who a call is asked that names the user keyrings, begins a session, or neither. */
void admission_put_identity(struct kr_identity *identity, const struct proc_status *status, bool is_of_user);

/* Whose the first session of a container is. */
void admission_put_first(struct kr_identity *identity);

/* In which session a thread asks that is run so, and asks as this uid. */
struct admitted admission_admit(const struct task *task, const struct asker *asker, uint32_t uid);

/* Whether a process keeps a session from its end whose tag it has; whether an entry that has nothing to lose may be
 * given up. */
bool admission_keeps(pid_t process, const struct session *session);
bool admission_may_be_forgotten(const struct process *process);

/* Whether a thread with these ids may give a session to its parent, of which this is read. */
bool admission_may_be_given(const struct proc_status *child, const struct session *session,
                            const struct proc_status *parent);

/* ---- maps.c: the ids of user_namespaces(7) ----
 *
 * Whose ids are served, and how those that are read here are seen there. */

/* uid_map or gid_map. */
enum { MAP_RANGES = 340 };
struct map {
    unsigned count;
    struct range {
        unsigned inside, outside, length;
    } ranges[MAP_RANGES];
};

/* The user namespace whose ids are served: the one that a runtime of our user has made around a container, whose first
 * process this is; else ours. What asks may be in others, which it has made itself. */
void maps_begin(pid_t first);

/* 65534, or what the system has in its place, for an id that isn't mapped. */
unsigned map_to_inside(const struct map *map, unsigned id, unsigned unknown);

/* Whether an id that is read here has a number there. */
bool maps_have_uid(unsigned uid);
bool maps_have_gid(unsigned gid);

unsigned maps_uid(unsigned uid);
unsigned maps_gid(unsigned gid);

/* Says what stands for ids that have no number there; and how many uids have one, or 0 where that isn't known. */
void maps_put(struct admission_process *process);

/* Whether a process isn't known to be in the container's PID namespace, nor in one within that, where the container is
 * told by one: it may be another container's, of the same id. */
bool maps_are_outside(pid_t process);

/* Whether a thread is in another user namespace: its user keyrings are others. And who has made the outermost of those
 * that it is in and that isn't served; -1 where that isn't known. */
bool maps_are_others(pid_t thread);
uid_t maps_maker(pid_t thread);

#endif
