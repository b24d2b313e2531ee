/* task_contexts.c: the contexts of threads. */
#include "serve.h"

enum { LOOKED_AT = 64, GIVEN_UP = 8, LAST = 15 };

/* The processes that have contexts: the one that asked longest ago is the first. */
static TAILQ_HEAD(, process) all = TAILQ_HEAD_INITIALIZER(all);

/* ---- A thread's ---- */

static void drop_standing(struct task *task, unsigned at) {
    if (--task->process->standings == 0) TAILQ_REMOVE(&all, task->process, order_of_standings);
    context_end(&task->standings[at].context);
    session_let_go(task->standings[at].session);
    user_let_go(task->standings[at].user);
    task->standings[at] = task->standings[--task->count];
}

void end_standings(struct task *task) {
    while (task->count > 0) drop_standing(task, task->count - 1);
}

/* Those whose connection has ended are dropped. Who has joined a session itself may be in it still. */
struct standing *find_standing(struct task *task, const struct user *user, const struct asker *asker) {
    for (unsigned i = task->count; i > 0; i--)
        if (!context_connection(&task->standings[i - 1].context)) drop_standing(task, i - 1);
    if (task->process->standings > 0) {
        TAILQ_REMOVE(&all, task->process, order_of_standings);
        TAILQ_INSERT_TAIL(&all, task->process, order_of_standings);
    }
    const struct admission_process *now = &asker->process;
    bool stays = krs_admission_c_stays(now, user->identity.uid, asker->revokes);
    return FIND_STANDING(task, at,
                         at->user == user &&
                             (at->has_joined ? stays : memcmp(&at->made_for, now, sizeof *now) == 0));
}

/* A place for one more; the one that asked longest ago makes room, but for the first. */
static struct standing *add_standing(struct task *task, const struct standing *made) {
    if (task->count == STANDINGS) drop_standing(task, 1);
    if (task->process->standings++ == 0) TAILQ_INSERT_TAIL(&all, task->process, order_of_standings);
    task->standings[task->count] = *made;
    session_use(made->session);
    user_use(made->user);
    return &task->standings[task->count++];
}

static struct standing *make_first_standing(struct task *first, struct user *user, struct admitted admitted) {
    struct standing made = { .user = user, .session = admitted.session, .is_lost = admitted.is_lost };
    if (!standings_may_have_more(user)) return NULL;
    if (session_enter(&made.context, user, made.session, &made.is_lost) < 0) return NULL;
    return add_standing(first, &made);
}

/* A thread that isn't the first shares that one's process keyring. So its context is in that one's session at first. */
static struct standing *make_task_standing(struct task *task, struct user *user, struct admitted admitted) {
    struct task *first = task->process->first;
    struct standing *root = FIND_STANDING(first, at, at->user == user);
    struct standing made = { .user = user, .session = admitted.session, .is_lost = admitted.is_lost };
    if (!root) root = make_first_standing(first, user, admitted);
    if (!root || !standings_may_have_more(user) || context_thread(&made.context, &root->context) < 0) return NULL;
    bool is_in = root->session == made.session && root->is_lost == made.is_lost;
    if (is_in) return add_standing(task, &made);
    is_in = made.session && session_enter_by_name(&made.context, user, made.session);
    made.is_lost = !is_in;
    if (is_in || session_leave(&made.context) == 0) return add_standing(task, &made);
    context_end(&made.context);
    return NULL;
}

struct standing *have_standing(struct task *task, struct user *user, struct admitted admitted,
                               const struct asker *asker) {
    bool is_first = task == task->process->first;
    struct standing *standing = FIND_STANDING(task, at, at->user == user && at->session == admitted.session &&
                                                at->is_lost == admitted.is_lost);
    if (!standing)
        standing = is_first ? make_first_standing(task, user, admitted) : make_task_standing(task, user, admitted);
    if (!standing) return NULL;
    memcpy(&standing->made_for, &asker->process, sizeof standing->made_for);
    return standing;
}

void standing_set_session(struct standing *standing, struct session *session) {
    struct session *before = standing->session;
    standing->session = session_use(session);
    session_let_go(before);
}

static bool may_have_keyring(const struct standing *standing) {
    return standing->may_have_thread_keyring || standing->may_have_process_keyring;
}

void standing_may_have(struct task *task, struct standing *standing, bool thread_keyring, bool process_keyring) {
    struct task *first = task->process->first;
    standing->may_have_thread_keyring |= thread_keyring;
    standing->may_have_process_keyring |= process_keyring;
    for (unsigned i = 0; i < first->count; i++)
        first->standings[i].may_have_process_keyring |= process_keyring && first->standings[i].user == standing->user;
}

void bring_standings(struct task *task, struct session *session) {
    for (unsigned i = task->count; i > 0; i--) {
        struct standing *standing = &task->standings[i - 1];
        if (standing->session == session) continue;
        if (may_have_keyring(standing)) {
            bool is_in = session_enter_by_name(&standing->context, standing->user, session);
            standing_set_session(standing, is_in ? session : NULL);
            standing->is_lost = !is_in;
            standing->has_joined = false;
            memset(&standing->made_for, -1, sizeof standing->made_for); /* nobody: who asks next is judged anew */
            if (!is_in && session_leave(&standing->context) < 0) drop_standing(task, i - 1);
        } else {
            drop_standing(task, i - 1);
        }
    }
}

/* ---- Giving up ---- */

static bool has_thread_keyring(struct task *task) {
    return FIND_STANDING(task, standing, standing->may_have_thread_keyring) != NULL;
}

static bool process_has_state(const struct process *process) {
    return FIND(process->tasks, task, FIND_STANDING(task, standing, may_have_keyring(standing)) != NULL);
}

/* Whether it has a context on the connection of this age, or of any for 0. */
static bool has_standing(struct task *task, unsigned age) {
    return FIND_STANDING(task, standing, age == 0 || standing->context.age == age) != NULL;
}

static void end_all_standings(struct process *process) {
    for (struct task *task = process->tasks; task; task = task->next) end_standings(task);
}

static bool end_idle_process(unsigned age, const struct task *asking) {
    struct process *process;
    TAILQ_FOREACH(process, &all, order_of_standings) {
        bool is_idle = (!asking || process != asking->process) && FIND(process->tasks, task, has_standing(task, age));
        if (!is_idle || process_has_state(process)) continue;
        end_all_standings(process);
        return true;
    }
    return false;
}

/* A thread that isn't the first shares that one's process keyring: it has but its thread keyring to lose. */
static bool end_idle_task(unsigned age, const struct task *asking) {
    struct process *process;
    TAILQ_FOREACH(process, &all, order_of_standings)
        for (struct task *task = process->tasks; task != process->first; task = task->next) {
            if (task == asking || !has_standing(task, age) || has_thread_keyring(task)) continue;
            end_standings(task);
            return true;
        }
    return false;
}

static unsigned count_of(uint32_t uid, unsigned age) {
    unsigned count = sessions_count(uid, age);
    const struct process *process;
    TAILQ_FOREACH(process, &all, order_of_standings)
        for (struct task *task = process->tasks; task; task = task->next)
            for (unsigned i = 0; i < task->count; i++)
                count += task->standings[i].user->identity.uid == uid && task->standings[i].context.age == age;
    return count;
}

/* The last contexts of a connection are for users who have fewer there than are left, so that no three take all. */
bool standings_may_have_more(const struct user *user) {
    const unsigned age = user->context.age;
    for (unsigned left; (left = context_left(&user->context)) <= LAST && count_of(user->identity.uid, age) >= left;)
        if (!tracees_make_room(age)) return fail_as(EDQUOT), false;
    return true;
}

/* An identity that only idle processes have is given up with their contexts. */
bool standings_make_room(unsigned age, const struct task *asking) {
    if (users_make_room(age)) return true;
    if (age > 0) return end_idle_process(age, asking) || end_idle_task(age, asking);
    while (end_idle_process(0, asking))
        if (users_make_room(0)) return true;
    return false;
}

/* By who has begun a session it is judged whom its tag lets in. */
static bool has_nothing(const struct task *task) {
    const struct task *first = task->process->first;
    bool has_begun = task == first && task->session && task->session->beginner == task->process;
    return task->reqkey == 0 && task->session == first->session && task->replay.until < kr_now() && !has_begun;
}

static unsigned give_up_tasks(struct process *process, const struct task *asking) {
    unsigned count = 0;
    for (struct task *task = process->tasks, *next; task != process->first; task = next) {
        next = task->next;
        if (task == asking || task->has_joined || !has_nothing(task) || has_thread_keyring(task)) continue;
        end_task(task);
        count++;
    }
    return count;
}

/* What can't be given up is looked at last from now on: else so many of them would hide all others. */
void standings_make_descriptors(const struct task *asking, bool (*may_be_forgotten)(const struct process *)) {
    struct process *process = entries_oldest(), *next;
    unsigned given_up = 0;
    for (int looked_at = 0; process && looked_at < LOOKED_AT && given_up < GIVEN_UP; looked_at++, process = next) {
        next = entries_next(process);
        given_up += give_up_tasks(process, asking);
        if (process->tasks != process->first || process == asking->process || !has_nothing(process->first) ||
            process_has_state(process) || !may_be_forgotten(process)) {
            process_asks(process);
            continue;
        }
        end_process(process);
        given_up++;
    }
}

void standings_leave_old_connections(void) {
    struct process *next;
    for (struct process *process = TAILQ_FIRST(&all); process; process = next) {
        next = TAILQ_NEXT(process, order_of_standings);
        if (!process_has_state(process)) end_all_standings(process);
    }
}
