/* binding: to what a supervisor is bound while it looks at a thread by its number, which another may get meanwhile;
 * which call an answer is kept for; and which ids a container's are. It calls the supervisor's parts as the loop does,
 * as process 1 of a PID namespace in which it may choose numbers. */
#define _GNU_SOURCE
#include <linux/seccomp.h>
#include <sched.h>
#include <sys/epoll.h>
#include <sys/mman.h>
#include <sys/prctl.h>
#include <sys/resource.h>

#include "check.h"
#include "calls.h"
#include "library/connection.h"
#include "supervisor/serve.h"

enum { NUMBER = 100, THREAD = 200, BESIDE = 300, MOST_DESCRIPTORS = 256, SOMEBODY = 4105, AWAY };

static char *shared_byte; /* at one address in all processes, and each has its own */
static pid_t successor;

static bool always(void) { return true; }

static bool never(void) { return false; }

/* A child with that number, which lives until it is killed. */
static pid_t begin_child(void) {
    pid_t child = fork_as(NUMBER);
    while (child == 0) pause();
    return child;
}

/* The notification waited when it was asked, and just then the thread is killed and its number is another's. */
static bool replaced(void) {
    end_child(NUMBER);
    successor = begin_child();
    return true;
}

static char byte_of(pid_t process) {
    char byte = '?';
    return memory_read(process, &byte, (unsigned long)shared_byte, 1) ? byte : '!';
}

/* As for a call that names the thread keyring. */
static bool enter(pid_t thread, bool (*is_valid)(void)) {
    const unsigned long given[KEY_ARGUMENTS] = { (unsigned long)(long)KEY_SPEC_THREAD_KEYRING };
    static struct sender sender;
    return sender_read(&sender, thread) &&
           tracees_enter(&sender, key_row_of(KEYCTL_GET_KEYRING_ID), given, is_valid);
}

static long ask(int command, unsigned long one, unsigned long two) {
    struct arguments arguments = { { one, two } };
    return key_call(command, arguments);
}

static long ring(int id, int create) {
    return ask(KEYCTL_GET_KEYRING_ID, (unsigned long)(long)id, (unsigned long)create);
}

static int count_descriptors(void) {
    int count = 0;
    for (int i = 0; i < MOST_DESCRIPTORS; i++) count += fcntl(i, F_GETFD) >= 0;
    return count;
}

/* ---- What is checked ---- */

static void try_validity(void) {
    pid_t child = begin_child();
    int descriptors = count_descriptors();
    check("a notification that waits no more is not answered", !enter(child, never));
    check("and nothing of its thread stays open", count_descriptors() == descriptors);
    check("one that waits is", enter(child, always));
    tracees_leave();
    descriptors = count_descriptors();
    check("one that has asked before is", enter(child, always));
    tracees_leave();
    check("and nothing more stays open", count_descriptors() == descriptors);
    end_child(child);
}

/* A stranger is never written to, though it has the number of who waited just before. */
static void try_stranger(void) {
    struct memory memory;
    pid_t child = begin_child();
    check("the memory of a thread is opened", memory_open(&memory, child) == 0);
    check("and written to", memory_write(&memory, (unsigned long)shared_byte, "x", 1) && byte_of(child) == 'x');
    check("not where it may only read itself", !memory_write(&memory, (unsigned long)try_stranger, "x", 1));
    replaced();
    check("who gets its number is not written to",
          !memory_write(&memory, (unsigned long)shared_byte, "x", 1) && byte_of(successor) == 'a');
    memory_close(&memory);
    end_child(successor);
}

/* Nothing tells of the end of the first, as events are not looked at here. */
static void try_reuse(void) {
    long first = 0, joined = 0;
    pid_t child = begin_child();
    if (check("a thread enters", enter(child, always))) {
        first = ring(KEY_SPEC_SESSION_KEYRING, 0);
        joined = ask(KEYCTL_JOIN_SESSION_KEYRING, 0, 0);
        check("it joins a session", joined > 0 && joined != first);
        check("it has a process keyring", ring(KEY_SPEC_PROCESS_KEYRING, 1) > 0);
        tracees_leave();
    }
    end_child(child);
    child = begin_child();
    if (check("another thread of the number enters", enter(child, always))) {
        check("it has not the session of the one before", ring(KEY_SPEC_SESSION_KEYRING, 0) != joined);
        check("it has no process keyring", refused(ring(KEY_SPEC_PROCESS_KEYRING, 0), ENOKEY));
        tracees_leave();
    }
    end_child(child);
}

/* The notification waited when it was asked first, and just then the process is killed, and its number another's in a
 * session that has been joined. */
static struct rlimit tag;
static bool has_waited;

static bool replaced_in_session(void) {
    if (has_waited) return false;
    has_waited = true;
    return replaced() && prlimit(successor, RLIMIT_LOCKS, &tag, NULL) == 0;
}

static void try_session_of_stranger(void) {
    long joined = 0;
    pid_t child = begin_child();
    if (check("a thread enters", enter(child, always))) {
        joined = ask(KEYCTL_JOIN_SESSION_KEYRING, 0, 0);
        check("it joins a session", joined > 0 && prlimit(child, RLIMIT_LOCKS, NULL, &tag) == 0);
        tracees_leave();
    }
    end_child(child);
    child = begin_child();
    if (check("another enters, whose number a third one gets", enter(child, replaced_in_session))) {
        check("it has not the session of that one", ring(KEY_SPEC_SESSION_KEYRING, 0) != joined);
        tracees_leave();
    }
    end_child(successor);
}

/* Its memory, or the daemon, may keep the supervisor waiting between the notification and the tag. */
static void try_tag_of_stranger(void) {
    struct rlimit before, after;
    pid_t child = begin_child();
    bool is_known = prlimit(child, RLIMIT_LOCKS, NULL, &before) == 0;
    if (check("a thread enters", is_known && enter(child, always))) {
        replaced();
        check("it joins a session", ask(KEYCTL_JOIN_SESSION_KEYRING, 0, 0) > 0);
        check("who has got its number is given no tag",
              prlimit(successor, RLIMIT_LOCKS, NULL, &after) == 0 && after.rlim_cur == before.rlim_cur);
        tracees_leave();
    }
    end_child(successor);
}

/* ---- A thread's number ---- */

static int orders[2], reports[2];

static void *wait_for_order(void *unused) {
    char byte;
    bool is_it = gettid() == THREAD; /* else the one before has not quite ended */
    if (is_it && (write(reports[1], "b", 1) != 1 || read(orders[0], &byte, 1) != 1)) _exit(2);
    return NULL;
}

/* A process that has one thread after the other with that number, each until it is told to end it. */
static void have_threads(void) {
    pthread_t thread;
    for (;;) {
        FILE *last = fopen("/proc/sys/kernel/ns_last_pid", "w");
        if (!last || fprintf(last, "%d", THREAD - 1) < 0 || fclose(last) != 0) _exit(2);
        if (pthread_create(&thread, NULL, wait_for_order, NULL) != 0) _exit(2);
        pthread_join(thread, NULL);
    }
}

static bool has_begun(void) {
    char byte;
    return read(reports[0], &byte, 1) == 1;
}

static void try_thread_reuse(void) {
    if (pipe(orders) < 0 || pipe(reports) < 0) exit(2);
    pid_t child = fork_as(NUMBER);
    if (child == 0) have_threads();
    if (check("a thread begins", has_begun()) && check("it enters", enter(THREAD, always))) {
        check("it has a thread keyring", ring(KEY_SPEC_THREAD_KEYRING, 1) > 0);
        tracees_leave();
    }
    check("it ends", write(orders[1], "e", 1) == 1);
    if (check("another of its number begins", has_begun()) && enter(THREAD, always)) {
        check("it has no thread keyring", refused(ring(KEY_SPEC_THREAD_KEYRING, 0), ENOKEY));
        tracees_leave();
    }
    end_child(child);
}

/* ---- Another user ---- */

static void hide(int unused) {
    (void)unused;
    if (prctl(PR_SET_DUMPABLE, 0) < 0 || write(reports[1], "h", 1) != 1) _exit(2);
}

/* A child of another user's, with the tag, which that one may trace until SIGUSR1; or 0. */
static pid_t begin_somebody(pid_t number) {
    pid_t child = fork_as(number);
    if (child > 0) return has_begun() ? child : 0;
    bool is_it = signal(SIGUSR1, hide) != SIG_ERR && setrlimit(RLIMIT_LOCKS, &tag) == 0 &&
                 setresuid(SOMEBODY, SOMEBODY, SOMEBODY) == 0 && prctl(PR_SET_DUMPABLE, 1) == 0 &&
                 write(reports[1], "b", 1) == 1;
    while (is_it) pause();
    _exit(2);
}

static long joined_by(pid_t child) {
    long joined = enter(child, always) ? ask(KEYCTL_JOIN_SESSION_KEYRING, 0, 0) : -1;
    tracees_leave();
    return joined;
}

/* The same: what is begun from now on has its tag. */
static long tagged_by(pid_t child) {
    long joined = joined_by(child);
    const struct process *process = find_process(child);
    if (joined > 0 && process) tag = (struct rlimit){ process->first->session->tag, RLIM_INFINITY };
    return joined;
}

/* Whether another one that has the tag is in that session. */
static bool is_let_in(long joined) {
    pid_t beside = begin_somebody(BESIDE);
    bool is_in = enter(beside, always) && ring(KEY_SPEC_SESSION_KEYRING, 0) == joined;
    tracees_leave();
    end_child(beside);
    return is_in;
}

/* By who has begun a session it is judged whom its tag lets in: as that one is now, while it is in it. */
static void try_beginner(void) {
    pid_t child = begin_somebody(NUMBER);
    long joined = tagged_by(child);
    check("the tag of another user's session lets that one in", joined > 0 && is_let_in(joined));
    check("who has begun it can't be traced any more", kill(child, SIGUSR1) == 0 && has_begun());
    check("then its tag lets nobody in", !is_let_in(joined));
    check("but where who has begun it has left it", joined_by(child) > 0 && is_let_in(joined));
    end_child(child);
    joined = tagged_by(child = begin_somebody(NUMBER));
    end_child(child);
    child = begin_somebody(NUMBER);
    check("another has the number of who has begun one", kill(child, SIGUSR1) == 0 && has_begun());
    check("that one isn't looked at for its tag", joined > 0 && is_let_in(joined));
    end_child(child);
}

/* What a user has left that has no process any more is given up, and not while a process has any of its uids. */
static void try_away(void) {
    static const uid_t uids[][3] = { { AWAY, AWAY, AWAY }, { AWAY, 0, 0 }, { 0, AWAY, 0 }, { 0, 0, AWAY } };
    static const char *const names[] = { "all uids", "the real uid", "the effective uid", "the saved uid" };
    for (int i = 0; i < 4; i++) {
        pid_t child = fork_as(BESIDE);
        bool is_it = child == 0 && setresuid(uids[i][0], uids[i][1], uids[i][2]) == 0;
        while (is_it && write(reports[1], "b", 1) == 1) pause();
        if (child == 0) _exit(2);
        bool is_there = has_begun() && (i > 0 || (enter(child, always) && ring(KEY_SPEC_USER_KEYRING, 0) > 0));
        struct process *process = find_process(child);
        tracees_leave();
        check(names[i], is_there && !users_give_up_keys());
        end_child(child);
        if (process) entries_ended(process);
        usleep(1100000); /* it is looked once a second */
    }
    check("no uid", users_give_up_keys());
}

/* Who knows its number may not end the session by which connections know their daemon, also when there was another. */
static void try_mark(void) {
    const struct session *first = sessions_first();
    struct kr *connection = context_connection(&first->holder), *other = contexts_open_apart();
    check("another connection is to that daemon", other != NULL);
    check("nobody ends the mark",
          refused(kr_invalidate(connection, first->holder.number, first->serial - 1), EACCES));
    kr_close(other);
}

static bool put_map(pid_t process, const char *name) {
    char path[64];
    snprintf(path, sizeof path, "/proc/%d/%s", (int)process, name);
    int file = open(path, O_WRONLY);
    bool is_put = write(file, "0 0 1", 5) == 5;
    return close(file) == 0 && is_put;
}

/* In a container whose user namespace has root alone. */
static void try_unmapped(void) {
    pid_t first = fork_as(BESIDE);
    while (first == 0) unshare(CLONE_NEWUSER) == 0 && write(reports[1], "b", 1) == 1 ? pause() : _exit(2);
    pid_t child = begin_somebody(NUMBER);
    check("a container begins", has_begun() && put_map(first, "uid_map") && put_map(first, "gid_map"));
    maps_begin(first);
    check("who has no number there is not served", !enter(child, always));
    maps_begin(0);
    check("and is elsewhere", enter(child, always));
    tracees_leave();
    end_child(child);
    end_child(first);
}

/* The answer to a call that was interrupted is that call's alone, and is given once. */
static void try_replay(void) {
    struct replay replay = { 0 };
    const struct seccomp_data call = { .nr = SYS_add_key, .instruction_pointer = 0x1000, .args = { 1, 2, 3, 4, 5 } };
    struct seccomp_data elsewhere = call, otherwise = call;
    struct admission_process caller = { .uids = { 33, 0, 0, 0 } }, another = { .uids = { 33, 33, 0, 33 } };
    long result = 0;
    elsewhere.instruction_pointer++;
    otherwise.args[4]++;
    check("nothing is kept at first", !replay_take(&replay, &call, &caller, 7, &result));
    replay_keep(&replay, &call, &caller, 7, -1, EDQUOT);
    errno = 0;
    check("what is kept is given", replay_take(&replay, &call, &caller, 7, &result) && refused(result, EDQUOT));
    check("once", !replay_take(&replay, &call, &caller, 7, &result));
    replay_keep(&replay, &call, &caller, 7, 9, 0);
    check("not for another payload", !replay_take(&replay, &call, &caller, 8, &result));
    check("and not at all after that", !replay_take(&replay, &call, &caller, 7, &result));
    replay_keep(&replay, &call, &caller, 7, 9, 0);
    replay.until = kr_now() - 1;
    check("not after its time", !replay_take(&replay, &call, &caller, 7, &result));
    replay_keep(&replay, &call, &caller, 7, 9, 0);
    check("not from another place", !replay_take(&replay, &elsewhere, &caller, 7, &result));
    replay_keep(&replay, &call, &caller, 7, 9, 0);
    check("not for other arguments", !replay_take(&replay, &otherwise, &caller, 7, &result));
    replay_keep(&replay, &call, &caller, 7, 9, 0);
    check("not for who has other ids", !replay_take(&replay, &call, &another, 7, &result));
    check("payloads are told apart", replay_sum(1, "a", 2) != replay_sum(1, "b", 2));
}

/* user_namespaces(7): an id that has none in the namespace is seen there as 65534. */
static void try_maps(void) {
    const struct map map = { .count = 2, .ranges = { { 0, 100000, 1000 }, { 5000, 7, 1 } } };
    check("the first of a range", map_to_inside(&map, 100000, 65534) == 0);
    check("the last of it", map_to_inside(&map, 100999, 65534) == 999);
    check("another range", map_to_inside(&map, 7, 65534) == 5000);
    check("ids beside the ranges", map_to_inside(&map, 101000, 65534) == 65534 &&
          map_to_inside(&map, 99999, 65534) == 65534 && map_to_inside(&map, 0, 65534) == 65534 &&
          map_to_inside(&map, 8, 65534) == 65534);
}

int main(void) {
    struct tracees_settings settings = { 0 };
    int epoll = epoll_create1(EPOLL_CLOEXEC);
    kr_own_identity(&settings.identity);
    shared_byte = mmap(NULL, 1, PROT_READ | PROT_WRITE, MAP_PRIVATE | MAP_ANONYMOUS, -1, 0);
    if (shared_byte == MAP_FAILED || epoll < 0) return 2;
    *shared_byte = 'a';
    if (!check("the supervisor begins", tracees_begin(&settings, epoll) == 0)) return conclude("binding");
    try_replay();
    try_maps();
    try_validity();
    try_stranger();
    try_reuse();
    try_session_of_stranger();
    try_tag_of_stranger();
    try_thread_reuse();
    try_mark();
    if (setegid(SOMEBODY) == 0 && setegid(0) == 0) try_beginner(), try_unmapped(), try_away();
    return conclude("binding");
}
