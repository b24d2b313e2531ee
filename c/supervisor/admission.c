/* admission.c: the facts of which krs_admission.h judges. Nothing is judged here: what can't be read is said to be
 * so. */
#include "entries.h"

#include <sys/auxv.h>

enum { ENDING_MILLISECONDS = 20 };

static bool is_in_container;

void admission_begin(bool is_container, pid_t first) {
    is_in_container = is_container;
    maps_begin(is_container ? first : 0);
}

/* ---- Who runs a process ---- */

static struct admission_ids to_inside(const struct admission_ids *ids, unsigned (*map)(unsigned)) {
    return (struct admission_ids){ map(ids->real), map(ids->effective), map(ids->saved), map(ids->files) };
}

static void put_status(struct admission_process *process, const struct proc_status *status) {
    memset(process, 0, sizeof *process);
    process->uids = to_inside(&status->uids, maps_uid);
    process->owner = status->owner == UINT32_MAX ? UINT32_MAX : maps_uid(status->owner);
    maps_put(process);
    process->starter = UINT32_MAX;
}

/* Who has executed it is told as a number of its own user namespace: of another one that is nobody's number here. */
void admission_put(struct admission_process *process, const struct proc_status *status,
                   const struct proc_vector *vector, bool is_elsewhere) {
    put_status(process, status);
    process->has_auxv = vector && vector_find(vector, &process->is_secure, &process->starter);
    if (is_elsewhere) process->starter = UINT32_MAX;
}

void admission_read(struct admission_process *process, pid_t id, const struct proc_status *status) {
    struct proc_vector vector;
    bool is_read = proc_read_vector(id, &vector);
    admission_put(process, status, is_read ? &vector : NULL, maps_are_others(id));
}

void admission_set(struct admission_process *process, uint32_t uid) {
    memset(process, 0, sizeof *process);
    process->uids = (struct admission_ids){ uid, uid, uid, uid };
    process->starter = process->owner = uid;
    process->is_secure = !is_in_container && getauxval(AT_SECURE) != 0;
    maps_put(process);
    process->has_auxv = true;
}

/* Groups that have no number there are left out: what stands for them is another group's number. */
void admission_put_identity(struct kr_identity *identity, const struct proc_status *status, bool is_of_user) {
    const struct admission_ids uids = to_inside(&status->uids, maps_uid), gids = to_inside(&status->gids, maps_gid);
    memset(identity, 0, sizeof *identity);
    identity->uid = krs_admission_c_asks_as(&uids, is_of_user);
    identity->gid = krs_admission_c_asks_as(&gids, is_of_user);
    for (uint32_t i = 0; i < status->count; i++)
        if (maps_have_gid(status->groups[i])) identity->groups[identity->count++] = maps_gid(status->groups[i]);
}

/* A runtime's user is the container's, or its root. */
void admission_put_first(struct kr_identity *identity) {
    memset(identity, 0, sizeof *identity);
    if (!maps_have_uid(geteuid())) return;
    identity->uid = maps_uid(geteuid());
    identity->gid = maps_gid(getegid());
}

/* ---- Sessions ---- */

/* Who has begun it, as that one is now, where it still holds it. What can't be read of it is all zero. Who ends has no
 * memory any more a moment before it has ended, unless a file that it closes has it wait. */
static bool read_beginner(const struct session *session, struct admission_process *beginner) {
    const struct process *process = session->beginner;
    struct proc_status status;
    if (!process || process->first->session != session) return false;
    if (proc_read_status(process->id, &status)) admission_read(beginner, process->id, &status);
    struct pollfd end = { process->descriptor, POLLIN, 0 };
    bool may_end = !beginner->has_auxv && process->memory >= 0 && memory_is_gone(process->memory);
    return poll(&end, 1, may_end ? ENDING_MILLISECONDS : 0) != 1;
}

/* Whether there is one, of which this is told then. */
static bool tell(const struct session *session, struct admission_session *told) {
    if (!session) return false;
    told->begun = session->begun;
    told->tag = session->tag;
    told->is_there = !session_is_lost(session);
    told->has_beginner = read_beginner(session, &told->beginner);
    return true;
}

/* One that ends meanwhile can't be looked at, but then another is the parent. */
enum { LOOKS = 3 };

/* What a runtime has begun for all of a container is above all in it. */
struct admitted admission_admit(const struct task *task, const struct asker *asker, uint32_t uid) {
    struct admission_arrival arrival = { 0 };
    const struct process *process_above = find_above(task->process->id, &arrival.knows_above);
    for (int i = 1; i < LOOKS && !arrival.knows_above; i++)
        process_above = find_above(task->process->id, &arrival.knows_above);
    struct session *above = process_above ? process_above->first->session : is_in_container ? sessions_first() : NULL;
    arrival.process = asker->process;
    arrival.uid = uid;
    arrival.has_joined = task->has_joined;
    arrival.revokes = asker->revokes;
    arrival.has_limit = proc_read_locks(task->process->id, &arrival.soft);
    struct session *tagged = arrival.has_limit ? session_of_tag(arrival.soft) : NULL;
    arrival.has_held = tell(task->session, &arrival.held);
    arrival.has_tagged = tell(tagged, &arrival.tagged);
    arrival.has_above = tell(above, &arrival.above);
    switch (krs_admission_c_admit(&arrival)) {
    case ADMISSION_USER_SESSION: return (struct admitted){ 0 };
    case ADMISSION_HELD: return (struct admitted){ .session = task->session };
    case ADMISSION_TAGGED: return (struct admitted){ .session = tagged };
    case ADMISSION_ABOVE: return (struct admitted){ .session = above };
    case ADMISSION_JOINED: return (struct admitted){ .session = task->session, .is_joined = true };
    default: return (struct admitted){ .is_lost = true };
    }
}

/* Any user's process may have a copied tag, and hold up who reads its vector, as by an execve(2) that closes a file of
 * FUSE. So that is read only where the process would keep the session if its vector said the best. It is the same with
 * a parent, which may be another container's. */
bool admission_keeps(pid_t id, const struct session *session) {
    struct proc_status status;
    struct admission_session told = { 0 };
    struct admission_process process;
    if (!proc_read_status(id, &status)) return false;
    tell(session, &told);
    put_status(&process, &status);
    process.has_auxv = true;
    if (!krs_admission_c_keeps(&process, &told)) return false;
    admission_read(&process, id, &status);
    return krs_admission_c_keeps(&process, &told);
}

bool admission_may_be_forgotten(const struct process *process) {
    struct admission_arrival arrival = { 0 };
    struct proc_status status;
    if (!process->first->session) return true;
    if (!proc_read_status(process->id, &status)) return false;
    admission_read(&arrival.process, process->id, &status);
    arrival.has_limit = proc_read_locks(process->id, &arrival.soft);
    arrival.has_held = tell(process->first->session, &arrival.held);
    return krs_admission_c_knows_again(&arrival);
}

bool admission_may_be_given(const struct proc_status *child, const struct session *session,
                            const struct proc_status *status) {
    struct admission_parent parent = { 0 };
    struct admission_session told = { 0 };
    put_status(&parent.process, status);
    parent.process.has_auxv = true;
    parent.gids = to_inside(&status->gids, maps_gid);
    parent.number = (uint32_t)status->process;
    parent.supervisor = (uint32_t)getpid();
    parent.threads = status->threads;
    parent.seccomp = status->seccomp;
    const struct process *process = find_process(status->process);
    parent.has_held = process && tell(process->first->session, &parent.held);
    tell(session, &told);
    const struct admission_ids uids = to_inside(&child->uids, maps_uid), gids = to_inside(&child->gids, maps_gid);
    if (!krs_admission_c_may_be_given(&parent, &uids, &gids, &told)) return false;
    admission_read(&parent.process, status->process, status);
    return !maps_are_outside(status->process) && krs_admission_c_may_be_given(&parent, &uids, &gids, &told);
}
