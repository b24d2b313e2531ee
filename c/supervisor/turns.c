/* turns.c: whose call is next, and how it is carried out. */
#include "serve.h"

#include <sys/epoll.h>
#include <sys/ioctl.h>

/* As many threads of one user may wait, which takes no more than 5 MB. So long may a caller's memory take, and a worker
 * be idle. */
enum { CALLS_OF_USER = 16384, WORKERS = 64, MEMORY_MILLISECONDS = 1000, IDLE_MILLISECONDS = 1000, ROOM = 512 };

/* As far as it is known here: a newer kernel's may be longer. */
struct call {
    struct seccomp_notif notification;
    int listener; /* -1 where it has gone */
    struct sender sender;
    unsigned step;  /* at which it was received */
    unsigned after; /* not before so many sweeps have ended */
    STAILQ_ENTRY(call) entry;
};

/* The first call of a user waits, or a worker is at it: takes what its pointers mean, or puts its answer there. */
enum stage { WAITS, IS_TAKEN, IS_PUT };

struct turn {
    uid_t uid;
    STAILQ_HEAD(, call) calls;
    unsigned count;
    enum stage stage;
    struct worker worker;
    pid_t given_up;   /* a worker that has not ended yet, or 0 */
    int64_t deadline; /* of the worker: for what it is at, or has been */
    long result;      /* of the call that is being put */
    struct turn *next;
};

static struct {
    struct turn *turns; /* of the users who have calls, or a worker */
    int epoll;
    uid_t own;
    struct copies *copies;   /* of calls of the supervisor's own uid */
    const struct call *call; /* that is served */
    unsigned steps;          /* calls that were received, and turns of them */
    union {
        struct seccomp_notif notification;
        char notification_room[ROOM];
    };
    union {
        struct seccomp_notif_resp reply;
        char reply_room[ROOM];
    };
} all;

int turns_begin(int epoll) {
    struct seccomp_notif_sizes sizes;
    if (syscall(SYS_seccomp, SECCOMP_GET_NOTIF_SIZES, 0, &sizes) < 0) return -1;
    if (sizes.seccomp_notif > ROOM || sizes.seccomp_notif_resp > ROOM) return fail_as(EMSGSIZE);
    all.epoll = epoll;
    all.own = geteuid();
    all.copies = copies_make();
    return all.copies ? 0 : -1;
}

/* ---- Who waits ---- */

/* In a user namespace of its own a program has as many uids as it was given: they are one user's, who made that. */
static uid_t user_of(const struct sender *sender) {
    return sender->is_elsewhere ? maps_maker(sender->thread) : sender->status.uids.real;
}

static struct turn *have_turn(uid_t uid) {
    struct turn *turn = FIND(all.turns, at, at->uid == uid), **last = &all.turns;
    if (!turn && (turn = calloc(1, sizeof *turn))) {
        while (*last) last = &(*last)->next;
        *last = turn;
        turn->uid = uid;
        turn->worker.socket = -1;
        STAILQ_INIT(&turn->calls);
    }
    return turn;
}

static bool add_call(const struct call *call) {
    struct turn *turn = have_turn(user_of(&call->sender));
    struct call *copy = turn && turn->count < CALLS_OF_USER ? malloc(sizeof *copy) : NULL;
    if (!copy) return false;
    *copy = *call;
    STAILQ_INSERT_TAIL(&turn->calls, copy, entry);
    turn->count++;
    return true;
}

static bool reply(const struct call *call, long result, int error) {
    memset(all.reply_room, 0, ROOM);
    all.reply.id = call->notification.id;
    if (result < 0)
        all.reply.error = -error;
    else
        all.reply.val = result;
    return ioctl(call->listener, SECCOMP_IOCTL_NOTIF_SEND, &all.reply) == 0;
}

/* What can't be looked into is answered as where no daemon is: never by the kernel's keys. ENOENT: it was killed before
 * it was received. */
bool turns_take(int listener) {
    struct call call = { .listener = listener };
    memset(all.notification_room, 0, ROOM);
    if (ioctl(listener, SECCOMP_IOCTL_NOTIF_RECV, &all.notification) < 0) return false;
    call.notification = all.notification;
    call.step = ++all.steps;
    bool is_seen = call.notification.pid != 0 && sender_read(&call.sender, (pid_t)call.notification.pid);
    if (!is_seen || !add_call(&call)) reply(&call, -1, is_seen ? ENOMEM : ENOSYS);
    return true;
}

void turns_forget(int listener) {
    struct call *call;
    for (struct turn *turn = all.turns; turn; turn = turn->next)
        STAILQ_FOREACH(call, &turn->calls, entry)
            if (call->listener == listener) call->listener = -1;
}

/* ---- A call ---- */

static bool is_valid(void) {
    return ioctl(all.call->listener, SECCOMP_IOCTL_NOTIF_ID_VALID, &all.call->notification.id) == 0;
}

int turns_give(int descriptor, bool closes) {
    struct seccomp_notif_addfd added = { .id = all.call->notification.id, .srcfd = (unsigned)descriptor,
                                         .newfd_flags = closes ? O_CLOEXEC : 0 };
    return ioctl(all.call->listener, SECCOMP_IOCTL_NOTIF_ADDFD, &added);
}

/* The first call of a user is done with, or put off. */
static void end_call(struct turn *turn, struct copies *copies, bool is_put_off) {
    struct call *call = STAILQ_FIRST(&turn->calls);
    turn->stage = WAITS;
    if (copies) copies_end(copies);
    if (is_put_off) return;
    STAILQ_REMOVE_HEAD(&turn->calls, entry);
    turn->count--;
    free(call);
}

static void refuse_call(struct turn *turn, struct copies *copies, int error) {
    reply(STAILQ_FIRST(&turn->calls), -1, error);
    end_call(turn, copies, false);
}

/* Another one that begins has its socket for a moment longer, as in entries.c. */
static void end_worker(struct turn *turn) {
    epoll_ctl(all.epoll, EPOLL_CTL_DEL, turn->worker.socket, NULL);
    worker_end(&turn->worker);
}

/* Where it doesn't end in time, what it waits for is the caller's alone: it is left, and none is there for this user as
 * long as it hasn't ended. */
static void give_up_worker(struct turn *turn) {
    turn->given_up = turn->worker.process;
    end_worker(turn);
    if (turn->stage != WAITS) refuse_call(turn, NULL, EFAULT);
}

static void tell_worker(struct turn *turn, enum stage stage, pid_t thread) {
    turn->stage = stage;
    turn->deadline = kr_now() + MEMORY_MILLISECONDS;
    if (!worker_tell(&turn->worker, thread)) give_up_worker(turn);
}

/* The answer is put where the call has its room, if there is one. A call that a signal has ended meanwhile has none. */
static void put_answer(struct turn *turn, struct copies *copies, long result) {
    if (!is_valid()) return end_call(turn, copies, false);
    turn->result = result;
    if (copies != all.copies) return tell_worker(turn, IS_PUT, 0);
    copies_put(copies);
    reply(all.call, copies->error ? -1 : result, copies->error);
    end_call(turn, copies, false);
}

/* What the sweeps to come may make room for is refused after these, and they come at once. */
static bool is_put_off(struct call *call, long result, int error) {
    bool is_first = result < 0 && error == EDQUOT && call->after == 0 && tracees_may_have_room();
    if (is_first) call->after = tracees_sweeps() + SWEEPS_FOR_ROOM;
    return is_first;
}

/* Whose call has waited may have gone, as where another of its threads executes something. What then has its number
 * isn't looked at: by a file that execve(2) closes it may hold up whoever does. */
static void carry_out(struct turn *turn, struct copies *copies) {
    struct call *call = STAILQ_FIRST(&turn->calls);
    const struct seccomp_data *data = &call->notification.data;
    uint64_t sum;
    bool has_waited = call->step != all.steps++ || turn->stage != WAITS;
    all.call = call;
    if (has_waited && !is_valid()) return end_call(turn, copies, false);
    if (!tracees_enter(&call->sender, copies->row, copies->given, is_valid)) return refuse_call(turn, copies, ENOSYS);
    long result = call_carry_out(copies, data, &sum);
    int error = errno;
    bool is_later = is_put_off(call, result, error);
    bool is_told = is_later || copies->puts || reply(call, result, error);
    if (!is_told && errno == ENOENT && sum != 0) {
        const struct entered *entered = tracees_entered();
        replay_keep(&entered->task->replay, data, &entered->asker.process, sum, result, error);
    }
    tracees_leave();
    if (copies->puts)
        put_answer(turn, copies, result);
    else
        end_call(turn, copies, is_later);
}

/* ---- Workers ---- */

static bool is_idle(const struct turn *turn) { return turn->worker.process > 0 && turn->count == 0; }

/* Of so many one that is idle makes room. */
static bool start_worker(struct turn *turn) {
    unsigned count = 0;
    for (const struct turn *at = all.turns; at; at = at->next) count += at->worker.process > 0 || at->given_up > 0;
    struct turn *other = count < WORKERS ? NULL : FIND(all.turns, at, is_idle(at));
    if (other) end_worker(other);
    if ((count >= WORKERS && !other) || !worker_start(&turn->worker)) return false;
    struct epoll_event event = { .events = EPOLLIN, .data.ptr = turn };
    if (epoll_ctl(all.epoll, EPOLL_CTL_ADD, turn->worker.socket, &event) == 0) return true;
    end_worker(turn);
    return false;
}

bool turns_have(const void *source) { return FIND(all.turns, turn, turn == source) != NULL; }

void turns_go_on(void *source) {
    struct turn *turn = source;
    if (turn->worker.process <= 0) return;
    if (!worker_has_done(&turn->worker)) return give_up_worker(turn);
    all.call = STAILQ_FIRST(&turn->calls);
    struct copies *copies = turn->worker.copies;
    if (turn->stage == IS_TAKEN) return carry_out(turn, copies);
    reply(all.call, copies->error ? -1 : turn->result, copies->error);
    end_call(turn, copies, false);
}

void turns_reaped(pid_t process) {
    struct turn *turn = FIND(all.turns, at, at->given_up == process || at->worker.process == process);
    if (turn && turn->worker.process == process) give_up_worker(turn);
    if (turn) turn->given_up = 0;
}

/* ---- Turns ---- */

/* What a user of the supervisor's own uid, who may stop it anyway, has in memory it reads itself. */
static void begin_call(struct turn *turn, const struct call *call) {
    unsigned long given[KEY_ARGUMENTS];
    int number = filter_decode(&call->notification.data, given);
    bool is_own = turn->uid == all.own, has_worker = turn->worker.process > 0;
    if (number < 0) return refuse_call(turn, NULL, ENOSYS);
    bool wants_memory = copies_begin(all.copies, key_row_of(number), given);
    if (wants_memory && !is_own && turn->given_up > 0) return refuse_call(turn, NULL, EFAULT);
    if (wants_memory && !is_own && !has_worker && !start_worker(turn)) return refuse_call(turn, NULL, ENOMEM);
    if (wants_memory && !is_own) {
        copies_begin(turn->worker.copies, key_row_of(number), given);
        return tell_worker(turn, IS_TAKEN, call->sender.thread);
    }
    if (wants_memory) copies_take(all.copies, call->sender.thread);
    carry_out(turn, all.copies);
}

static bool is_due(const struct call *call) { return call->after <= tracees_sweeps() || !tracees_may_have_room(); }

static void serve_turn(struct turn *turn) {
    if (turn->stage != WAITS && kr_now() >= turn->deadline) give_up_worker(turn);
    if (is_idle(turn) && kr_now() >= turn->deadline + IDLE_MILLISECONDS) end_worker(turn);
    const struct call *call = STAILQ_FIRST(&turn->calls);
    if (turn->stage == WAITS && call && is_due(call)) begin_call(turn, call);
}

void turns_serve(void) {
    for (struct turn *turn = all.turns, *next; turn; turn = next) {
        serve_turn(turn);
        next = turn->next;
        if (turn->count > 0 || turn->worker.process > 0 || turn->given_up > 0) continue;
        TAKE_OUT(all.turns, turn);
        free(turn);
    }
}

int64_t turns_next(void) {
    int64_t next = KR_NEVER;
    for (const struct turn *turn = all.turns; turn; turn = turn->next) {
        int64_t its = turn->deadline + (turn->count == 0 ? IDLE_MILLISECONDS : 0);
        if (turn->stage == WAITS && turn->count > 0) return 0;
        if (turn->worker.process > 0 && its < next) next = its;
    }
    return next;
}

bool turns_want_sweep(void) {
    return FIND(all.turns, turn, turn->stage == WAITS && turn->count > 0 && !is_due(STAILQ_FIRST(&turn->calls)));
}
