/* entries.c: what a supervisor remembers of the processes and threads that have asked. */
#include "entries.h"

#include <sys/epoll.h>

enum { BUCKETS = 16384, SPARE_DESCRIPTORS = 174, OF_PROCESS = 2, OF_SWEEP = 64 };

static struct {
    int epoll;
    struct process *buckets[BUCKETS];
    TAILQ_HEAD(, process) order; /* the one that asked longest ago is the first */
    TAILQ_HEAD(, process) swept; /* that a sweep looks at: the one that was looked at longest ago is the first */
    unsigned to_sweep;
    rlim_t descriptors, most_descriptors;
} all;

void entries_begin(int epoll) {
    struct rlimit limit;
    all.epoll = epoll;
    TAILQ_INIT(&all.order);
    TAILQ_INIT(&all.swept);
    all.most_descriptors = getrlimit(RLIMIT_NOFILE, &limit) == 0 ? limit.rlim_cur : RLIM_INFINITY;
}

/* What else is open is no more than the spare ones. */
bool entries_are_many(void) { return all.descriptors + SPARE_DESCRIPTORS >= all.most_descriptors; }

/* ---- Ends ---- */

static void sweep_no_more(struct process *process) {
    if (!process->may_have_keyrings) return;
    all.to_sweep--;
    TAILQ_REMOVE(&all.swept, process, order_of_sweep);
    process->may_have_keyrings = false;
}

void sweep_from_now_on(struct process *process) {
    if (process->may_have_keyrings) return;
    all.to_sweep++;
    TAILQ_INSERT_TAIL(&all.swept, process, order_of_sweep);
    process->may_have_keyrings = true;
}

/* A worker that begins has it for a moment longer: until then epoll(7) wouldn't forget it by itself, and would tell of
 * an entry that is freed. */
static void close_told(int *descriptor) {
    ERRNO_STAYS;
    epoll_ctl(all.epoll, EPOLL_CTL_DEL, *descriptor, NULL);
    close_one(descriptor);
}

void end_task(struct task *task) {
    TAKE_OUT(task->process->tasks, task);
    end_standings(task);
    session_let_go(task->session);
    if (task->descriptor >= 0) all.descriptors--;
    close_told(&task->descriptor);
    explicit_bzero(task, sizeof *task);
    free(task);
}

static struct process **bucket_of(pid_t id) { return &all.buckets[(unsigned)id % BUCKETS]; }

void end_process(struct process *process) {
    TAKE_OUT(*bucket_of(process->id), process);
    TAILQ_REMOVE(&all.order, process, order);
    while (process->tasks) end_task(process->tasks);
    sessions_forget(process);
    sweep_no_more(process);
    close_one(&process->memory);
    close_told(&process->descriptor);
    all.descriptors -= OF_PROCESS;
    free(process);
}

void entries_ended(void *ended) {
    if (*(enum kind *)ended == PROCESS)
        end_process(ended);
    else
        end_task(ended);
}

/* ---- Entries ---- */

static bool is_told_of(int descriptor, void *entry) {
    struct epoll_event event = { .events = EPOLLIN, .data.ptr = entry };
    return epoll_ctl(all.epoll, EPOLL_CTL_ADD, descriptor, &event) == 0;
}

/* Where epoll(7) doesn't take the descriptor, the sweep sees the thread's end. */
struct task *add_task(struct process *process, pid_t thread, int descriptor) {
    struct task *task = calloc(1, sizeof *task);
    if (!task) return close_one(&descriptor), NULL;
    struct session *session = process->first ? process->first->session : NULL;
    *task = (struct task){ .kind = TASK, .thread = thread, .descriptor = descriptor, .process = process,
                           .session = session_use(session), .next = process->tasks };
    process->tasks = task;
    if (descriptor >= 0) all.descriptors++;
    if (descriptor >= 0 && !is_told_of(descriptor, task)) sweep_from_now_on(process);
    return task;
}

struct process *add_process(pid_t id, int descriptor) {
    struct process *process = calloc(1, sizeof *process);
    if (process) *process = (struct process){ .kind = PROCESS, .id = id, .descriptor = descriptor, .memory = -1 };
    if (!process || !is_told_of(descriptor, process) || !(process->first = add_task(process, id, -1)))
        return close_one(&descriptor), forgotten(process);
    process->next = *bucket_of(id);
    *bucket_of(id) = process;
    TAILQ_INSERT_TAIL(&all.order, process, order);
    all.descriptors += OF_PROCESS;
    return process;
}

/* One whose number another may have is behind that one's; epoll(7) tells its end, and not before the call that is
 * served, as this may be its own. */
struct process *find_process(pid_t id) {
    struct process *process = FIND(*bucket_of(id), at, at->id == id);
    return process && !proc_has_ended(process->descriptor) ? process : NULL;
}

struct task *find_task(const struct process *process, pid_t thread) {
    struct task *task = FIND(process->tasks, at, at->thread == thread);
    if (!task || task->descriptor < 0 || !proc_has_ended(task->descriptor)) return task;
    end_task(task);
    return NULL;
}

struct process *find_above(pid_t id, bool *is_known) {
    struct process *above = NULL;
    pid_t parent = proc_parent(id);
    for (; !above && parent > 1 && parent != getpid(); parent = proc_parent(parent)) above = find_process(parent);
    *is_known = above || parent >= 0;
    return above;
}

void process_asks(struct process *process) {
    TAILQ_REMOVE(&all.order, process, order);
    TAILQ_INSERT_TAIL(&all.order, process, order);
}

struct process *entries_oldest(void) { return TAILQ_FIRST(&all.order); }
struct process *entries_next(const struct process *process) { return TAILQ_NEXT(process, order); }

/* A process that has ended while it asked may have left its number to another one, of whatever user. */
void set_session(struct task *task, struct session *session) {
    const struct process *process = task->process;
    struct session *before = task->session;
    if (task == process->first && !proc_has_ended(process->descriptor)) session_put_tag(process->id, session);
    task->session = session_use(session);
    session_let_go(before);
}

/* ---- What executes something else ---- */

void note_executed(struct process *process) {
    while (process->tasks != process->first) end_task(process->tasks);
    end_standings(process->first);
    process->first->has_joined = false;
    process->first->replay = (struct replay){ 0 };
    process->has_threads = false;
    sweep_no_more(process);
    close_one(&process->memory);
    process->is_fork = false;
}

bool has_executed(const struct process *process, uint64_t image) {
    if (process->memory < 0) return false;
    return memory_is_gone(process->memory) || (process->is_fork && !proc_has_only_forked(process->id, true)) ||
           (image != 0 && image != process->image);
}

/* ---- The sweep ---- */

unsigned entries_to_sweep(void) { return all.to_sweep; }

/* What waits within execve(2), as to close a file whose server is slow, has what is read of it wait too: not where its
 * memory is seen to be gone. */
static void look_again(struct process *process) {
    struct proc_vector vector;
    for (struct task *task = process->tasks, *next; task; task = next) {
        next = task->next;
        if (task->descriptor >= 0 && proc_has_ended(task->descriptor)) end_task(task);
    }
    if (has_executed(process, 0) ||
        (proc_read_vector(process->id, &vector) && has_executed(process, proc_image(process->id, &vector))))
        note_executed(process);
}

unsigned entries_sweep(unsigned left) {
    for (int i = 0; i < OF_SWEEP && left > 0; i++, left--) {
        struct process *process = TAILQ_FIRST(&all.swept);
        if (!process) return 0;
        TAILQ_REMOVE(&all.swept, process, order_of_sweep);
        TAILQ_INSERT_TAIL(&all.swept, process, order_of_sweep);
        look_again(process);
    }
    return left;
}
