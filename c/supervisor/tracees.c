/* tracees.c: the threads whose calls are served, one at a time. */
#include "notes.h"
#include "serve.h"

static struct entered all;
/* What is told again counts for who was told alone: another user could have a number told, and what it names is that
 * user's then. */
static int32_t highest, stale; /* of all users: the highest serial that was told, also by the daemons before */
static unsigned before;         /* how many daemons there were before this one */
static bool has_pipes;

const struct entered *tracees_entered(void) { return &all; }

/* ---- Who asks ---- */

/* What is known of a thread that asks, before it is sure that its number is still its own. */
struct arrival {
    int process_descriptor, thread_descriptor; /* for new entries, or -1 */
    int memory;                                /* where its entry has none, or another one's; or -1 */
    struct process *process;                   /* NULL where it is a new one */
    struct task *task;                         /* NULL where it is a new one */
    uint64_t image;
    bool has_executed;
};

bool sender_read(struct sender *sender, pid_t thread) {
    sender->thread = thread;
    sender->is_elsewhere = maps_are_others(thread);
    return proc_read_status(thread, &sender->status);
}

/* Opens by number what is wanted of a thread, and changes nothing. Descriptors stay bound to what they were opened
 * for, whoever gets the number later. One whose uids have no numbers there can't be told from others. */
static bool look_at(const struct sender *sender, struct arrival *arrival) {
    const struct proc_status *status = &sender->status;
    const pid_t thread = sender->thread;
    struct proc_vector vector;
    *arrival = (struct arrival){ .process_descriptor = -1, .thread_descriptor = -1, .memory = -1 };
    if (!maps_have_uid(status->uids.real) || !maps_have_uid(status->uids.files)) return false;
    if (!proc_read_vector(thread, &vector) || (arrival->image = proc_image(thread, &vector)) == 0) return false;
    admission_put(&all.asker.process, status, &vector, sender->is_elsewhere);
    struct process *process = arrival->process = find_process(status->process);
    arrival->has_executed = process && has_executed(process, arrival->image);
    if ((!process || arrival->has_executed || process->memory < 0) && (arrival->memory = memory_watch(thread)) < 0)
        return false;
    if (process && !arrival->has_executed) arrival->task = find_task(process, thread);
    if (!process && (arrival->process_descriptor = proc_open(status->process)) < 0) return false;
    if (!process && maps_are_outside(status->process)) return false;
    bool is_first = thread == status->process;
    return arrival->task || is_first || (arrival->thread_descriptor = proc_open_thread(thread)) >= 0;
}

/* Changes entries, now that the notification still waited after all was opened. */
static struct task *settle_in(const struct sender *sender, struct arrival *arrival) {
    struct process *process = arrival->process;
    const pid_t thread = sender->thread;
    if (arrival->has_executed) note_executed(process);
    if (!process) {
        process = add_process(sender->status.process, arrival->process_descriptor);
        arrival->process_descriptor = -1;
    }
    if (!process) return NULL;
    if (process->memory < 0) {
        process->memory = arrival->memory;
        arrival->memory = -1;
        process->is_fork = proc_has_only_forked(process->id, false);
    }
    process->image = arrival->image;
    if (arrival->task) return arrival->task;
    if (thread == process->id) return process->first;
    struct task *task = add_task(process, thread, arrival->thread_descriptor);
    arrival->thread_descriptor = -1;
    return task;
}

/* What is opened by number is the notified thread's only where the notification still waits afterwards. So all is
 * opened first, then is_valid is asked once, and only then something is changed. */
static struct task *have_entry(const struct sender *sender) {
    struct arrival arrival;
    struct task *task = look_at(sender, &arrival) && all.is_valid() ? settle_in(sender, &arrival) : NULL;
    close_one(&arrival.process_descriptor);
    close_one(&arrival.thread_descriptor);
    close_one(&arrival.memory);
    return task;
}

/* The user keyrings are the real uid's, and so is a session that is begun. Whoever has joined one itself is asked as
 * then where it names that, by a number too, while it has that real uid. */
static bool is_of_user(struct task *task, const struct key_row *row, const unsigned long *given) {
    if (row->is_of_user || key_row_names(row, given, KEY_SPEC_USER_KEYRING) ||
        key_row_names(row, given, KEY_SPEC_USER_SESSION_KEYRING))
        return true;
    return task->has_joined && !session_is_lost(task->session) &&
           krs_admission_c_stays(&all.asker.process, task->session->user->identity.uid, false) &&
           (key_row_names(row, given, KEY_SPEC_SESSION_KEYRING) || key_row_names(row, given, task->session->serial));
}

bool tracees_enter(const struct sender *sender, const struct key_row *row, const unsigned long given[KEY_ARGUMENTS],
                   bool (*is_valid)(void)) {
    all.is_valid = is_valid;
    all.sender = sender;
    all.task = NULL;
    struct task *task = have_entry(sender);
    if (!task) return false;
    bool names_thread = key_row_names(row, given, KEY_SPEC_THREAD_KEYRING);
    all.asker.revokes =
        row->call == KEYCTL_REVOKE && task->has_joined && key_row_names(row, given, task->session->serial);
    admission_put_identity(&all.identity, &sender->status, is_of_user(task, row, given));
    all.task = task;
    process_asks(task->process);
    task->process->has_threads |= names_thread || row->call == KEYCTL_JOIN_SESSION_KEYRING;
    if (names_thread || key_row_names(row, given, KEY_SPEC_PROCESS_KEYRING)) sweep_from_now_on(task->process);
    return true;
}

void tracees_leave(void) {
    if (entries_are_many()) standings_make_descriptors(all.task, admission_may_be_forgotten);
    all.task = NULL;
}

/* ---- Its context ---- */

/* All threads ask in the context of the first until some call names a thread keyring. */
static struct task *who_stands(struct task *task) { return task->process->has_threads ? task : task->process->first; }

/* What is read by number is the notified thread's where the notification still waits afterwards. What it has begun for
 * another user, as a login does, is what its children look for: it goes on to hold that. */
static struct standing *have_new_standing(struct task *task, struct user *user) {
    struct admitted admitted = admission_admit(task, &all.asker, user->identity.uid);
    if (!all.is_valid()) return fail_as(ENOSYS), NULL;
    admitted.is_lost |= !admitted.session && all.sender->is_elsewhere; /* its user-session keyring is another */
    session_use(admitted.session); /* what is given up to make room isn't this one */
    if (admitted.session && admitted.session != task->session && !task->has_joined)
        set_session(task, admitted.session);
    struct standing *standing = have_standing(task, user, admitted, &all.asker);
    if (standing && admitted.is_joined) standing->has_joined = true;
    session_let_go(admitted.session);
    return standing;
}

static struct standing *have_context(void) {
    struct task *task = who_stands(all.task);
    struct user *user = users_find(&all.identity);
    if (!user) return NULL;
    struct standing *standing = find_standing(task, user, &all.asker);
    if (standing) return standing;
    user_use(user);
    standing = have_new_standing(task, user);
    user_let_go(user);
    return standing;
}

/* Serials of another daemon than the last one's mean nothing. Behind a guard it has the same process, so it may be
 * another whenever nothing was left of the connections to the last. */
static int have_connection(void) {
    static unsigned last; /* the daemon is the one met since then */
    if (contexts_begin_call() < 0) return -1;
    bool is_other = last != 0 && contexts_beginnings() != last;
    if (is_other) stale = highest;
    before += is_other;
    last = contexts_beginnings();
    if (contexts_renew()) {
        users_renew();
        sessions_renew();
        standings_leave_old_connections();
    }
    return 0;
}

/* ---- What caller.h wants, for the thread that has entered ---- */

static bool begin_told(struct told *told) {
    if (told->before != before && serials_begin_anew(&told->serials, stale) < 0) return false;
    told->before = before;
    return true;
}

bool caller_enter(struct caller *caller) {
    struct standing *standing = have_connection() < 0 ? NULL : have_context();
    if (!standing || !begin_told(standing->user->told)) return false;
    *caller = (struct caller){
        .connection = context_connection(&standing->context), .context = standing->context.number,
        .lost_session = standing->is_lost, .standing = standing, .serials = &standing->user->told->serials,
    };
    return true;
}

/* A context that the daemon doesn't know is no error of the program's: the next call begins anew. */
void caller_leave(struct caller *caller, long result) {
    if (caller->serials->highest > highest) highest = caller->serials->highest;
    if (result < 0 && errno == ESRCH) context_forget(&caller->standing->context);
    standing_may_have(who_stands(all.task), caller->standing, caller->may_hold_thread, caller->may_hold);
}

/* Its standing, which has joined a session, and may have another place then. */
static struct standing *note_joined(struct standing *standing, struct session *session) {
    struct task *task = all.task;
    bool is_first = task == task->process->first;
    if (is_first && session->uses == 0) session->beginner = task->process;
    standing_set_session(standing, session);
    standing->is_lost = false;
    standing->has_joined = true;
    bring_standings(task, session);
    set_session(task, session);
    task->has_joined = true;
    return FIND_STANDING(task, at, at->has_joined);
}

/* To the session of before; errno stays. */
static void go_back(struct standing *standing) {
    ERRNO_STAYS;
    bool is_in = standing->session && session_enter_by_name(&standing->context, standing->user, standing->session);
    if (!is_in) standing->is_lost = true;
}

int32_t caller_join(struct caller *caller, const char *name) {
    struct standing *standing = caller->standing;
    if (!standings_may_have_more(standing->user)) return -1;
    bool has_left = false;
    struct session *session = session_join(&standing->context, standing->user, name, &all.asker.process, &has_left);
    if (has_left) go_back(standing);
    if (!session) return -1;
    int32_t serial = session->serial;
    caller->standing = note_joined(standing, session);
    return serial;
}

bool caller_has_pipes(void) { return has_pipes; }
long caller_watch(struct caller *caller, int32_t id, int descriptor, int watch) {
    return pipe_watch(caller->connection, caller->context, id, descriptor, watch);
}

/* ---- Giving a session to the parent ---- */

/* The caller's parent, if it may be given its session. It is bound before it is read by its number, and is the caller's
 * parent still afterwards. */
static struct process *have_parent(const struct session *session) {
    struct proc_status status;
    pid_t child = all.task->process->id, parent = proc_parent(child);
    if (parent <= 1 || parent == getpid()) return NULL;
    struct process *process = find_process(parent);
    int descriptor = process ? -1 : proc_open(parent);
    bool is_one = (process || descriptor >= 0) && proc_read_status(parent, &status) &&
                  admission_may_be_given(&all.sender->status, session, &status);
    if (is_one && proc_parent(child) == parent) return process ? process : add_process(parent, descriptor);
    close_one(&descriptor);
    return NULL;
}

long tracees_session_to_parent(void) {
    struct caller caller;
    if (!caller_enter(&caller)) return -1;
    struct session *session = caller.lost_session ? NULL : caller.standing->session;
    caller_leave(&caller, 0);
    if (caller.lost_session) return fail_as(EKEYREVOKED);
    struct process *parent = session ? have_parent(session) : NULL;
    if (!parent) return fail_as(EPERM);
    bring_standings(parent->first, session);
    parent->first->has_joined &= parent->first->session == session;
    set_session(parent->first, session);
    return 0;
}

/* ---- Room, and the sweep ---- */

bool tracees_make_room(unsigned age) { return standings_make_room(age, all.task); }
bool tracees_may_have_room(void) { return sessions_want_sweep(); }
bool tracees_want_sweep(void) { return entries_to_sweep() > 0 || sessions_want_sweep() || users_want_sweep(); }

static struct {
    enum { OF_NOTHING, OF_ENTRIES, OF_SESSIONS } part;
    unsigned left, count;
} sweep;

unsigned tracees_sweeps(void) { return sweep.count; }

bool tracees_sweep(void) {
    contexts_set_deadline();
    switch (sweep.part) {
    case OF_NOTHING:
        sweep.left = entries_to_sweep();
        sweep.part = OF_ENTRIES;
        return true;
    case OF_ENTRIES:
        sweep.left = entries_sweep(sweep.left);
        if (sweep.left == 0) sweep.part = OF_SESSIONS;
        return true;
    case OF_SESSIONS:
        if (sessions_sweep(admission_keeps)) return true;
        users_sweep();
        contexts_tidy();
        sweep.part = OF_NOTHING;
        sweep.count++;
    }
    return false;
}

/* ---- Beginning ---- */

static int begin_child(pid_t child) {
    int descriptor = proc_open(child);
    struct process *process = descriptor < 0 ? NULL : add_process(child, descriptor);
    if (!process) return -1;
    set_session(process->first, sessions_first());
    return 0;
}

int tracees_begin(const struct tracees_settings *settings, int epoll) {
    struct admission_process begun;
    has_pipes = settings->has_pipes;
    entries_begin(epoll);
    admission_begin(settings->is_container, settings->first);
    struct kr_identity identity = settings->identity;
    if (settings->is_container) admission_put_first(&identity);
    admission_set(&begun, identity.uid);
    if (contexts_begin(settings->socket, &identity, tracees_make_room, users_give_up_keys) < 0) return -1;
    if (sessions_begin(&identity, &begun, settings->name, settings->is_container) < 0) return -1;
    return settings->child > 0 ? begin_child(settings->child) : 0;
}
